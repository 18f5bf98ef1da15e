/* The archive is for x86-64. Where the machine is another, this x86-64 program calls it under an emulator: it reads
 * calls from standard input, makes them, and writes answers and lent buffers to standard output. It needs no C library;
 * src/far.rs is the other end.
 *
 * A call, in words of 64 bits: the operation's number (that of a stored sample), HEAD and SIZES below, then the
 * coefficients of a and b and what out and scratch hold. The answer: the function's word, then what out and scratch
 * hold. The word is all ones where anything else in memory was changed. */
#include "../../face/taylor.h"

enum { NUMBERS = 7, HEAD = 3 + NUMBERS, SIZES = 4, GUARD = 4, MOST = 1 << 17 };
static const double SENTINEL = 1.0000000000000002;

static uint64_t head[HEAD]; /* operation, ah, bh, numbers */
static uint64_t size[SIZES]; /* of a, b, out and scratch */
static double memory[MOST], before[MOST];

static long kernel(long number, long fd, void *bytes, long count) {
    long done;
    __asm__ volatile("syscall" : "=a"(done) : "a"(number), "D"(fd), "S"(bytes), "d"(count) : "rcx", "r11", "memory");
    return done;
}

static void leave(int status) {
    kernel(60, status, 0, 0);
    __builtin_unreachable();
}

/* Reads (0) or writes (1) all of the bytes; the end of the input ends the program. */
static void move(int way, void *bytes, long count) {
    while (count > 0) {
        long done = kernel(way, way, bytes, count);
        if (done <= 0) leave(way || done < 0);
        bytes = (char *)bytes + done;
        count -= done;
    }
}

/* The archive and the compiler ask for these. */
void *memset(void *to, int byte, size_t count) {
    for (size_t i = 0; i < count; i++) ((volatile unsigned char *)to)[i] = (unsigned char)byte;
    return to;
}

void *memcpy(void *to, const void *from, size_t count) {
    for (size_t i = 0; i < count; i++) ((volatile unsigned char *)to)[i] = ((const unsigned char *)from)[i];
    return to;
}

void *memmove(void *to, const void *from, size_t count) {
    volatile unsigned char *t = to;
    const unsigned char *f = from;
    if ((uint64_t)to < (uint64_t)from) {
        for (size_t i = 0; i < count; i++) t[i] = f[i];
    } else {
        for (size_t i = count; i > 0; i--) t[i - 1] = f[i - 1];
    }
    return to;
}

static double as_float(uint64_t bits) {
    union { uint64_t bits; double value; } same = {bits};
    return same.value;
}

static uint64_t bits_of(double value) {
    union { double value; uint64_t bits; } same = {value};
    return same.bits;
}

static uint64_t make(const double *a, const double *b, double *out, double *scratch) {
    uint64_t ah = head[1], bh = head[2], *n = head + 3;
    size_t na = size[0], nb = size[1], no = size[2], ns = size[3];
    switch (head[0]) {
    case 0: return taylor_negate(ah, a, na, out, no);
    case 1: return taylor_add(ah, a, na, bh, b, nb, out, no, scratch, ns);
    case 2: return taylor_subtract(ah, a, na, bh, b, nb, out, no, scratch, ns);
    case 3: return taylor_taylor_polynomial(ah, a, na, n[0], n[1], out, no);
    case 4: return taylor_coefficients_of_term(ah, a, na, n[0], n[1], out, no);
    case 5: return taylor_multiply(ah, a, na, bh, b, nb, out, no, scratch, ns);
    case 6: return taylor_divide(ah, a, na, bh, b, nb, out, no, scratch, ns);
    case 7: return taylor_exp(ah, a, na, as_float(n[0]), out, no, scratch, ns);
    case 8: return taylor_log(ah, a, na, as_float(n[0]), out, no, scratch, ns);
    case 10: return taylor_zero_with(n[0], n[1], n[2], n[3], n[4], out, no);
    case 11: return taylor_from_u32((uint32_t)n[0], out, no);
    case 12: return taylor_from_u32_with((uint32_t)n[0], n[1], n[2], n[3], n[4], n[5], out, no);
    case 13: return taylor_var_at_zero(n[0], n[1], out, no);
    case 14: return taylor_var(n[0], as_float(n[1]), n[2], out, no);
    case 15: return taylor_var_with_degrees_p1(n[0], as_float(n[1]), n[2], n[3], n[4], n[5], n[6], out, no);
    case 16: return taylor_zero(out, no);
    case 17: return taylor_one(out, no);
    case 20: return taylor_coefficient(ah, a, na, n[0], n[1], n[2], n[3], out);
    case 21: return taylor_constant_term(ah, a, na, out);
    case 22: return taylor_evaluate_all_one(ah, a, na, out);
    case 23: return taylor_extract_linear(ah, a, na, out, out + 1);
    case 24: return taylor_tail(ah, a, na, n[0], as_float(n[1]), out);
    case 25: return taylor_least(ah, a, na, as_float(n[0]), (uint64_t *)out);
    case 30: return taylor_pow(ah, a, na, (uint32_t)n[0], out, no, scratch, ns);
    case 31: return taylor_derivative(ah, a, na, n[0], n[1], out, no);
    case 32: return taylor_taylor_expansion_of_coeff(ah, a, na, n[0], n[1], out, no);
    case 33: return taylor_shift_down(ah, a, na, n[0], n[1], out, no);
    case 34: return taylor_subst_var(ah, a, na, bh, b, nb, n[0], out, no, scratch, ns);
    }
    leave(3);
    return 0;
}

/* Whether every place from `from` up to `to` holds what it held before the call. */
static int same(size_t from, size_t to) {
    for (; from < to; from++)
        if (bits_of(memory[from]) != bits_of(before[from])) return 0;
    return 1;
}

/* Reads the four buffers into memory, with guards around each; `at` is where each begins, then where the last guard
 * ends. */
static void load(size_t at[SIZES + 1]) {
    size_t end = 0;
    for (int i = 0; i < SIZES; i++) {
        if (size[i] > MOST || end + size[i] + 2 * GUARD > MOST) leave(4);
        for (int g = 0; g < GUARD; g++) memory[end++] = SENTINEL;
        at[i] = end;
        move(0, memory + end, 8 * size[i]);
        end += size[i];
    }
    for (int g = 0; g < GUARD; g++) memory[end++] = SENTINEL;
    at[SIZES] = end;
    for (size_t i = 0; i < end; i++) before[i] = memory[i];
}

/* A function's stack is aligned by the call to it, which the start of a program has not. */
__asm__(".globl _start\n_start: call serve\n");

void serve(void) {
    for (;;) {
        size_t at[SIZES + 1];
        move(0, head, sizeof head);
        move(0, size, sizeof size);
        load(at);
        uint64_t word = make(memory + at[0], memory + at[1], memory + at[2], memory + at[3]);
        if (!same(0, at[2]) || !same(at[2] + size[2], at[3]) || !same(at[3] + size[3], at[4])) word = ~0ull;
        move(1, &word, sizeof word);
        move(1, memory + at[2], 8 * size[2]);
        move(1, memory + at[3], 8 * size[3]);
    }
}
