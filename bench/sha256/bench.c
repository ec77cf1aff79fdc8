// Compares the two SHA-256 side by side: first that their digests agree, then their time per byte.
#include <stdio.h>
#include <string.h>
#include <time.h>
#include "sha256.h"

#define LONGEST 65536
#define AGREE 4096
#define REPEATS 25
#define BYTES_PER_REPEAT (4 << 20)

typedef void digest_fn(const uint8_t *, size_t, uint8_t[32]);

static uint8_t input[LONGEST];

static double now_ns(void) {
    struct timespec t;
    clock_gettime(CLOCK_MONOTONIC, &t);
    return t.tv_sec * 1e9 + t.tv_nsec;
}

// Nanoseconds per byte over one repeat; each digest goes into the next input, so that none is left out.
static double once(digest_fn *digest, size_t n) {
    uint8_t out[32];
    size_t turns = BYTES_PER_REPEAT / n;
    double start = now_ns();
    for (size_t i = 0; i < turns; i++) {
        digest(input, n, out);
        input[0] ^= out[0];
    }
    return (now_ns() - start) / (double)(turns * n);
}

int main(void) {
    uint8_t c[32], r[32];
    for (size_t i = 0; i < LONGEST; i++)
        input[i] = (uint8_t)(i * 7 + 3 + i / 251);
    for (size_t n = 0; n <= AGREE; n++) {
        c_sha256(input, n, c);
        rattle_sha256(input, n, r);
        if (memcmp(c, r, 32) != 0) {
            printf("the digests differ at length %zu\n", n);
            return 1;
        }
    }
    printf("the digests agree at every length from 0 to %d\n", AGREE);
    printf("%8s %14s %14s %8s   (ns per byte, best of %d)\n", "bytes", "C", "Rattle", "C/Rattle", REPEATS);
    static const size_t sizes[] = {64, 1024, 65536};
    for (int k = 0; k < 3; k++) {
        double tc = 1e9, tr = 1e9;
        for (int i = 0; i < REPEATS; i++) {
            double c_time = once(c_sha256, sizes[k]), r_time = once(rattle_sha256, sizes[k]);
            tc = c_time < tc ? c_time : tc;
            tr = r_time < tr ? r_time : tr;
        }
        printf("%8zu %14.3f %14.3f %8.2f\n", sizes[k], tc, tr, tc / tr);
    }
    return 0;
}
