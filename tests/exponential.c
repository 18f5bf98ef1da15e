/* The exponential of a constant behind a pipe, for tests/exponential.py; freestanding, since the archive is for x86-64
 * and the machine may be another. Asked: the 64 bits of a float. Told: the answer, and the bits that stand behind the
 * pointer after it (77 before the call). */
#include "../face/taylor.h"

static long kernel(long number, long fd, void *bytes, long count) {
    long done;
    __asm__ volatile("syscall" : "=a"(done) : "a"(number), "D"(fd), "S"(bytes), "d"(count) : "rcx", "r11", "memory");
    return done;
}

static void leave(int status) {
    kernel(60, status, 0, 0);
    __builtin_unreachable();
}

/* Reads (0) or writes (1) all of the bytes; the end of the input ends the program. */
static void move(int way, void *bytes, long count) {
    while (count > 0) {
        long done = kernel(way, way, bytes, count);
        if (done <= 0) leave(way || done < 0);
        bytes = (char *)bytes + done;
        count -= done;
    }
}

/* The archive and the compiler ask for these. */
void *memset(void *to, int byte, size_t count) {
    for (size_t i = 0; i < count; i++) ((volatile unsigned char *)to)[i] = (unsigned char)byte;
    return to;
}

void *memcpy(void *to, const void *from, size_t count) {
    for (size_t i = 0; i < count; i++) ((volatile unsigned char *)to)[i] = ((const unsigned char *)from)[i];
    return to;
}

void *memmove(void *to, const void *from, size_t count) {
    volatile unsigned char *t = to;
    const unsigned char *f = from;
    if ((uint64_t)to < (uint64_t)from) {
        for (size_t i = 0; i < count; i++) t[i] = f[i];
    } else {
        for (size_t i = count; i > 0; i--) t[i - 1] = f[i - 1];
    }
    return to;
}

union both {
    uint64_t bits;
    double value;
};

void _start(void) {
    for (;;) {
        union both x, value = {.bits = 77};
        uint64_t told[2];
        move(0, &x.bits, sizeof x.bits);
        told[0] = taylor_exp_constant(x.value, &value.value);
        told[1] = value.bits;
        move(1, told, sizeof told);
    }
}
