/* SHA-256: the proved code beside a plain C version and OpenSSL, interleaved in one run.
   Prints the median over the rounds of bytes a second, and the ratio to plain C. */
#define _POSIX_C_SOURCE 200809L
#include "mastdock.h"
#include "plain.h"
#include <stdio.h>
#include <stdlib.h>
#include <string.h>
#include <time.h>
#ifdef WITH_OPENSSL
#include <openssl/sha.h>
#endif

static void proved_portion(const uint8_t *m, size_t len, uint8_t d[32]) {
    mastdock_hash_updated u = mastdock_hash_update(mastdock_hash_new(), m, len);
    mastdock_hash_finished f = mastdock_hash_finish(u.hash);
    memcpy(d, f.digest, 32);
}

static void proved_call(const uint8_t *m, size_t len, uint8_t d[32]) {
    mastdock_digested r = mastdock_digest(m, len);
    memcpy(d, r.digest, 32);
}

#ifdef WITH_OPENSSL
static void openssl_call(const uint8_t *m, size_t len, uint8_t d[32]) { SHA256(m, len, d); }
#endif

typedef void hasher(const uint8_t *, size_t, uint8_t[32]);

static double now(void) {
    struct timespec t;
    clock_gettime(CLOCK_MONOTONIC, &t);
    return (double)t.tv_sec + 1e-9 * (double)t.tv_nsec;
}

static int by_value(const void *a, const void *b) {
    double x = *(const double *)a, y = *(const double *)b;
    return (x > y) - (x < y);
}

enum { ROUNDS = 15 };

/* Each digest is put into the message, so that no call can be left out. */
static double once(hasher *f, uint8_t *m, size_t len, int calls) {
    uint8_t d[32];
    double start = now();
    for (int i = 0; i < calls; i++) {
        f(m, len, d);
        memcpy(m, d, 32);
    }
    return (now() - start) / calls;
}

static void compare(const char *name, hasher *proved, uint8_t *m, size_t len, int calls) {
    hasher *all[3] = {proved, plain_sha256, NULL};
    int n = 2;
#ifdef WITH_OPENSSL
    all[n++] = openssl_call;
#endif
    double t[3][ROUNDS];
    for (int r = 0; r < ROUNDS; r++)
        for (int k = 0; k < n; k++)
            t[k][r] = once(all[k], m, len, calls);
    for (int k = 0; k < n; k++)
        qsort(t[k], ROUNDS, sizeof(double), by_value);
    double p = t[0][ROUNDS / 2], c = t[1][ROUNDS / 2];
    printf("%-28s proved %8.1f MB/s  plain C %8.1f MB/s  ratio %.2f", name, len / p / 1e6, len / c / 1e6, c / p);
    if (n == 3)
        printf("  OpenSSL %8.1f MB/s", len / t[2][ROUNDS / 2] / 1e6);
    printf("\n");
}

int main(void) {
    size_t big = (size_t)64 << 20;
    uint8_t *m = malloc(big), a[32], b[32], c[32];
    for (size_t i = 0; i < big; i++)
        m[i] = (uint8_t)(i * 7 + 3);
    for (size_t len = 0; len < 300; len++) {
        plain_sha256(m, len, a);
        proved_portion(m, len, b);
        proved_call(m, len, c);
        if (memcmp(a, b, 32) || memcmp(a, c, 32)) {
            printf("digests differ at length %zu\n", len);
            return 1;
        }
    }
    compare("64 MiB in one portion", proved_portion, m, big, 1);
    compare("105 bytes in one call", proved_call, m, 105, 200000);
    compare("1,321 bytes in one call", proved_call, m, 1321, 20000);
    free(m);
    return 0;
}
