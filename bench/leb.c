/* The same as the program `wasm_bench numbers`, as one writes it in C. */
#include <stdint.h>
#include <stdio.h>
#include <stdlib.h>

static size_t write_number(uint8_t *to, uint32_t rest) {
    size_t n = 0;
    for (;;) {
        uint8_t low = rest & 0x7f;
        rest >>= 7;
        if (rest == 0) {
            to[n++] = low;
            return n;
        }
        to[n++] = low | 0x80;
    }
}

static int read_number(const uint8_t **at, const uint8_t *end, uint32_t *value) {
    const uint8_t *p = *at;
    uint32_t low = 0;
    unsigned shift = 0;
    for (;;) {
        if (p == end) return 0;
        uint8_t byte = *p++;
        low |= (uint32_t)(byte & 0x7f) << shift;
        if (shift >= 25 && byte >> (32 - shift) != 0) return 0;
        shift += 7;
        if (!(byte & 0x80)) break;
    }
    *at = p;
    *value = low;
    return 1;
}

static __attribute__((noinline)) int total(const uint8_t *p, const uint8_t *end, uint32_t *sum) {
    uint32_t value;
    *sum = 0;
    while (p != end) {
        if (!read_number(&p, end, &value)) return 0;
        *sum += value;
    }
    return 1;
}

int main(int argc, char **argv) {
    uint32_t passes = argc > 1 ? (uint32_t)strtoul(argv[1], NULL, 10) : 1;
    uint8_t *buffer = malloc(500000);
    size_t length = 0;
    uint32_t state = 12345, sum = 0;
    if (!buffer) return 1;
    for (int i = 0; i < 100000; i++) {
        state = state * 1664525u + 1013904223u;
        unsigned kind = (state >> 24) & 15;
        unsigned shift = kind < 8 ? 25 : kind < 12 ? 18 : kind < 14 ? 11 : kind == 14 ? 4 : 0;
        length += write_number(buffer + length, state >> shift);
    }
    for (uint32_t i = 0; i < passes; i++) {
        uint32_t one;
        if (!total(buffer, buffer + length, &one)) return 1;
        sum += one;
        __asm__ volatile("" ::: "memory");
    }
    printf("%zu %u\n", length, sum);
    free(buffer);
    return 0;
}
