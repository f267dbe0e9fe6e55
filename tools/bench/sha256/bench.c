// Times SHA-256 at several lengths: the proved code, plain C and OpenSSL's, in turn in one run; the least time of many short bursts.
// OpenSSL takes its code for the processor from OPENSSL_ia32cap, so `run` starts this once for each of its codes.
#include <openssl/sha.h>
#include <stdint.h>
#include <stdio.h>
#include <string.h>
#include <time.h>

void sha256_digest(const uint8_t *message, size_t len, uint64_t out[4]);
void plain_sha256(const uint8_t *message, size_t len, uint8_t out[32]);

enum { OURS, PLAIN, OPENSSL, KINDS };
enum { BURSTS = 200, BURST_BYTES = 1000000 };

static uint8_t message[16384];

static void hash(int kind, size_t len, uint64_t out[4]) {
    if (kind == OURS) sha256_digest(message, len, out);
    else if (kind == PLAIN) plain_sha256(message, len, (uint8_t *)out);
    else SHA256(message, len, (uint8_t *)out);
}

static double seconds(void) {
    struct timespec t;
    clock_gettime(CLOCK_THREAD_CPUTIME_ID, &t);
    return t.tv_sec + 1e-9 * t.tv_nsec;
}

static double burst(int kind, size_t len, long times) {
    uint64_t out[4];
    double start = seconds();
    for (long i = 0; i < times; i++) {
        hash(kind, len, out);
        message[0] ^= (uint8_t)out[0]; // each call waits for the one before
    }
    return (seconds() - start) / times;
}

int main(int argc, char **argv) {
    static const size_t lens[] = {64, 256, 1024, 16384};
    for (size_t i = 0; i < sizeof message; i++) message[i] = (uint8_t)(i * 131 + 7);
    for (size_t len = 0; len <= 300; len++) {
        uint64_t out[KINDS][4];
        for (int kind = 0; kind < KINDS; kind++) hash(kind, len, out[kind]);
        if (memcmp(out[OURS], out[PLAIN], 32) || memcmp(out[OURS], out[OPENSSL], 32)) {
            printf("digests differ at length %zu\n", len);
            return 1;
        }
    }
    for (size_t l = 0; l < sizeof lens / sizeof *lens; l++) {
        double best[KINDS] = {1e9, 1e9, 1e9};
        for (int b = 0; b < BURSTS; b++)
            for (int kind = 0; kind < KINDS; kind++) {
                double t = burst(kind, lens[l], BURST_BYTES / (lens[l] + 72) + 1);
                if (t < best[kind]) best[kind] = t;
            }
        double mb = lens[l] / 1e6;
        printf("| %s | %zu | %.0f | %.0f | %.0f | %.2f | %.2f |\n", argc > 1 ? argv[1] : "openssl", lens[l], mb / best[OURS],
               mb / best[PLAIN], mb / best[OPENSSL], best[PLAIN] / best[OURS], best[OPENSSL] / best[OURS]);
    }
    return 0;
}
