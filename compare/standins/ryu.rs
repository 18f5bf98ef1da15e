//! A stand-in for crate ryu: a float as text. Only printing calls it; no comparison reads what it writes.

#[derive(Default)]
pub struct Buffer {
    text: String,
}

impl Buffer {
    pub fn new() -> Self {
        Self::default()
    }

    pub fn format(&mut self, x: f64) -> &str {
        self.text = format!("{x:?}");
        &self.text
    }
}
