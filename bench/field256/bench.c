/* Products of field 256: the proved ones beside a plain C product by shifts and by tables, in one run. */
#include <stdint.h>
#include <stdio.h>
#include <stdlib.h>
#include <time.h>

uint16_t field256_chain(const uint8_t *bytes, size_t length, uint16_t x);
uint16_t field256_sum(const uint8_t *bytes, size_t length, uint16_t x);

static uint8_t logs[256], powers[510];

/* the product by shifts, which also makes the tables */
static uint8_t shifted(uint8_t a, uint8_t b) {
    uint8_t r = 0;
    for (int i = 0; i < 8; i++) {
        r ^= a & -(b & 1);
        a = (uint8_t)(a << 1) ^ (0x1b & -(a >> 7));
        b >>= 1;
    }
    return r;
}

static uint8_t tabled(uint8_t a, uint8_t b) {
    return a && b ? powers[logs[a] + logs[b]] : 0;
}

static uint16_t chain_shifted(const uint8_t *s, size_t n, uint16_t x) {
    uint8_t v = 0;
    for (size_t i = 0; i < n; i++) v = s[i] ^ shifted((uint8_t)x, v);
    return v;
}

static uint16_t chain_tabled(const uint8_t *s, size_t n, uint16_t x) {
    uint8_t v = 0;
    for (size_t i = 0; i < n; i++) v = s[i] ^ tabled((uint8_t)x, v);
    return v;
}

static uint16_t sum_shifted(const uint8_t *s, size_t n, uint16_t x) {
    uint8_t v = 0;
    for (size_t i = 0; i < n; i++) v ^= shifted(s[i], (uint8_t)x);
    return v;
}

static uint16_t sum_tabled(const uint8_t *s, size_t n, uint16_t x) {
    uint8_t v = 0;
    for (size_t i = 0; i < n; i++) v ^= tabled(s[i], (uint8_t)x);
    return v;
}

typedef uint16_t (*product_loop)(const uint8_t *, size_t, uint16_t);

/* the best of some repeats, in nanoseconds a product */
static double best(product_loop f, const uint8_t *s, size_t n, uint16_t *sink) {
    double low = 1e9;
    for (int k = 0; k < 25; k++) {
        struct timespec a, b;
        clock_gettime(CLOCK_MONOTONIC, &a);
        *sink ^= f(s, n, (uint16_t)(3 + k));
        clock_gettime(CLOCK_MONOTONIC, &b);
        double t = ((b.tv_sec - a.tv_sec) * 1e9 + (b.tv_nsec - a.tv_nsec)) / n;
        if (t < low) low = t;
    }
    return low;
}

int main(void) {
    enum { N = 65536 };
    static uint8_t s[N];
    uint16_t sink = 0;
    uint8_t p = 1;
    for (int k = 0; k < 255; k++) {
        powers[k] = powers[k + 255] = p;
        logs[p] = (uint8_t)k;
        p = shifted(p, 3);
    }
    for (int i = 0; i < N; i++) s[i] = (uint8_t)(i * 7 + i / 251);
    for (int x = 0; x < 256; x++) {
        if (field256_sum(s, N, (uint16_t)x) != sum_shifted(s, N, (uint16_t)x) || field256_chain(s, N, (uint16_t)x) != chain_shifted(s, N, (uint16_t)x)) {
            printf("the products differ at %d\n", x);
            return 1;
        }
    }
    printf("ns a product        proved   C by tables   C by shifts\n");
    printf("one after another   %6.2f   %11.2f   %11.2f\n", best(field256_chain, s, N, &sink), best(chain_tabled, s, N, &sink), best(chain_shifted, s, N, &sink));
    printf("side by side        %6.2f   %11.2f   %11.2f\n", best(field256_sum, s, N, &sink), best(sum_tabled, s, N, &sink), best(sum_shifted, s, N, &sink));
    return sink == 0xffff;
}
