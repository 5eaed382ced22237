/* To see whether interrupts and switches between threads keep all registers. */
#ifndef REGISTERS_H
#define REGISTERS_H

#include <stdint.h>

/* 26 values, each with the next one. The compiler keeps them in all registers that it has. */
#define EACH(DO) \
    DO(a, b) DO(b, c) DO(c, d) DO(d, e) DO(e, f) DO(f, g) DO(g, h) DO(h, i) DO(i, j) DO(j, k) \
    DO(k, l) DO(l, m) DO(m, n) DO(n, o) DO(o, p) DO(p, q) DO(q, r) DO(r, s) DO(s, t) DO(t, u) \
    DO(u, v) DO(v, w) DO(w, x) DO(x, y) DO(y, z) DO(z, a)
#define BEGIN(value, next) uint64_t value = rounds + sum++;
#define MIX(value, next) value += next ^ rounds;
#define ADD(value, next) sum = 31 * sum + value;

/* Computes with all registers for so many rounds. Returns a sum that depends on that number
 * alone. */
static __attribute__((noinline)) uint64_t sum_of_registers(unsigned rounds) {
    uint64_t sum = 0;
    EACH(BEGIN)
    for (; rounds > 0; rounds--) {
        EACH(MIX)
    }
    EACH(ADD)
    return sum;
}

#endif
