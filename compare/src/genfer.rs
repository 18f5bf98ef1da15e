//! The source's files as a crate. `number/mod.rs` and `ppl.rs` are not among them and stand here as what the files ask
//! of them.

#[cfg(not(reach))]
#[path = "../genfer/multivariate_taylor.rs"]
pub mod multivariate_taylor;

/// The same file with src/reach.rs after its last line, put together by `run`: a private function is seen by its own
/// module alone.
#[cfg(reach)]
#[path = "../../target/compare/multivariate_taylor.rs"]
pub mod multivariate_taylor;

#[path = "../genfer/number"]
pub mod number {
    mod f64;
    mod number;

    pub use f64::F64;
    pub use number::*;
}

#[path = "../standins/ppl.rs"]
pub mod ppl;
