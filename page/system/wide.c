/* Arithmetic of 128 bits that LLVM calls. Numbers are taken apart by a union, since a shift would be a call of this. */
#include "system.h"

typedef unsigned long part;
typedef union {
    struct {
        part low, high;
    };
    wide all;
} both;

/* The whole product of two numbers of 64 bits, from four of 32 bits. */
static both product(part a, part b) {
    part a0 = (unsigned)a, a1 = a >> 32, b0 = (unsigned)b, b1 = b >> 32;
    part low = a0 * b0, left = a0 * b1, right = a1 * b0;
    part middle = (low >> 32) + (unsigned)left + (unsigned)right;
    return (both){.low = middle << 32 | (unsigned)low, .high = a1 * b1 + (left >> 32) + (right >> 32) + (middle >> 32)};
}

wide __multi3(wide x, wide y) {
    both a = {.all = x}, b = {.all = y}, c = product(a.low, b.low);
    c.high += a.low * b.high + a.high * b.low;
    return c.all;
}

wide __ashlti3(wide x, int count) {
    both a = {.all = x}, c = {.low = 0};
    if (!count) return x;
    if (count & 64) {
        c.high = a.low << (count & 63);
    } else {
        c.low = a.low << count;
        c.high = a.high << count | a.low >> (64 - count);
    }
    return c.all;
}

wide __lshrti3(wide x, int count) {
    both a = {.all = x}, c = {.low = 0};
    if (!count) return x;
    if (count & 64) {
        c.low = a.high >> (count & 63);
    } else {
        c.high = a.high >> count;
        c.low = a.low >> count | a.high << (64 - count);
    }
    return c.all;
}

static both minus(both a) { return (both){.low = -a.low, .high = ~a.high + !a.low}; }

/* a is taken twice, with one more bit behind, and b away from it where it fits in: whether it did. */
static int next_bit(both *a, part bit, both b) {
    part over = a->high >> 63;
    a->high = a->high << 1 | a->low >> 63;
    a->low = a->low << 1 | bit;
    if (!over && (a->high < b.high || (a->high == b.high && a->low < b.low))) return 0;
    a->high -= b.high + (a->low < b.low);
    a->low -= b.low;
    return 1;
}

/* Long division, bit by bit where a number has more than 64 of them. */
static both quotient(both a, both b) {
    both q = {.low = 0}, rest = {.low = 0};
    if (!a.high && !b.high) {
        q.low = a.low / b.low;
        return q;
    }
    for (int i = 127; i >= 0; i--) {
        part bit = (i & 64 ? a.high : a.low) >> (i & 63) & 1;
        if (!next_bit(&rest, bit, b)) continue;
        if (i & 64) q.high |= 1UL << (i & 63);
        else q.low |= 1UL << i;
    }
    return q;
}

wide __divti3(wide x, wide y) {
    both a = {.all = x}, b = {.all = y};
    int is_negative = (long)(a.high ^ b.high) < 0;
    both q = quotient((long)a.high < 0 ? minus(a) : a, (long)b.high < 0 ? minus(b) : b);
    return is_negative ? minus(q).all : q.all;
}
