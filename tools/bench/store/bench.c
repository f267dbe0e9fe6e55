// Times the proved store: paths found, not found, and found, removed and added again, at 64 and at 32,768 records; and counts the steps along chains.
// A store of 32,768 places is 50 MB, and its slots are not in the caches. So that the same memory is walked at both sizes, the 64 records
// are also taken in each of 512 stores, visited at random. A fence keeps each call from overlapping the next; the least time of many passes.
#include <stdint.h>
#include <stdio.h>
#include <stdlib.h>
#include <string.h>
#include <sys/mman.h>
#include <time.h>

void store_open(uint64_t *mem, size_t words, size_t n);
size_t store_find(const uint64_t *mem, size_t words, size_t n, uint64_t salt, size_t len, const uint64_t *bits, size_t four);
size_t store_add(uint64_t *mem, size_t words, size_t n, uint64_t salt, size_t len, const uint64_t *bits, size_t four);
void store_remove(uint64_t *mem, size_t words, size_t n, uint64_t salt, size_t i);

enum { FEW = 64, ALL = 32768, PLACE = 192, BITS = 256, PASSES = 120, SALTS = 100 };
enum { HIT, MISS, PAIR, OPS };
static const char *const ops[OPS] = {"found", "not found", "found, removed and added"};
static const char *const shared[] = {"none, random", "the first 240", "the last 240", "the middle 240"};

// A visit: a path, the store that it is looked for in, and its slot there.
struct visit { uint64_t bits[4], *mem; size_t n, slot; };

static uint64_t *memory, salt = 0x9e3779b97f4a7c15;
static struct visit hits[ALL], misses[ALL];

static double seconds(void) {
    struct timespec t;
    clock_gettime(CLOCK_THREAD_CPUTIME_ID, &t);
    return t.tv_sec + 1e-9 * t.tv_nsec;
}

static uint64_t next_random(uint64_t *state) {
    uint64_t z = *state += 0x9e3779b97f4a7c15;
    z = (z ^ z >> 30) * 0xbf58476d1ce4e5b9;
    z = (z ^ z >> 27) * 0x94d049bb133111eb;
    return z ^ z >> 31;
}

// Path number k of 65,536 that share bits.
static void path_of(int pattern, uint64_t k, uint64_t bits[4]) {
    uint64_t state = pattern == 0 ? k << 32 : 1;
    for (int w = 0; w < 4; w++) bits[w] = next_random(&state);
    if (pattern == 1) bits[3] ^= k;
    if (pattern == 2) bits[0] ^= k << 48;
    if (pattern == 3) bits[0] ^= k >> 8 << 56, bits[3] ^= k & 255;
}

static void shuffle(struct visit *v) {
    uint64_t state = 5;
    for (size_t i = ALL - 1; i > 0; i--) {
        size_t j = next_random(&state) % (i + 1);
        struct visit t = v[i];
        v[i] = v[j], v[j] = t;
    }
}

// The chain of a path, as specs/Holding.antt has it.
static size_t home(size_t n, uint64_t by, const uint64_t bits[4]) {
    uint64_t mixed = by ^ BITS;
    for (int w = 0; w < 4; w++) {
        unsigned __int128 product = (unsigned __int128)(mixed ^ bits[w]) * (by | 1);
        mixed = (uint64_t)product ^ (uint64_t)(product >> 64);
    }
    return mixed % (n - 1);
}

// Stores of n records each, filled; and the visits to them, in random order.
static void fill(int pattern, size_t n, size_t stores) {
    for (size_t s = 0; s < stores; s++) store_open(memory + s * n * PLACE, n * PLACE, n);
    for (size_t v = 0; v < ALL; v++) {
        size_t k = v % (n * stores);
        uint64_t *mem = memory + k / n * n * PLACE;
        hits[v] = misses[v] = (struct visit){.mem = mem, .n = n};
        path_of(pattern, k, hits[v].bits);
        path_of(pattern, k + ALL, misses[v].bits);
        hits[v].slot = v == k ? store_add(mem, n * PLACE, n, salt, BITS, hits[v].bits, 4) : hits[k].slot;
        misses[v].slot = n;
        if (hits[v].slot >= n) puts("no place"), exit(1);
        if (v == k && mem[home(n, salt, hits[v].bits)] != hits[v].slot + 1) puts("another chain"), exit(1);
    }
    shuffle(hits);
    shuffle(misses);
}

static double pass(int op) {
    const struct visit *first = op == MISS ? misses : hits;
    double start = seconds();
    for (const struct visit *v = first; v < first + ALL; v++) {
        size_t r = store_find(v->mem, v->n * PLACE, v->n, salt, BITS, v->bits, 4);
        if (op == PAIR) {
            store_remove(v->mem, v->n * PLACE, v->n, salt, r);
            r = store_add(v->mem, v->n * PLACE, v->n, salt, BITS, v->bits, 4);
        }
        if (r != v->slot) puts("wrong slot"), exit(1);
        __builtin_ia32_lfence(); // no call begins before the one before has ended
    }
    return (seconds() - start) / ALL * 1e9;
}

static void times(int pattern, size_t n, size_t stores, double best[OPS]) {
    fill(pattern, n, stores);
    for (int op = 0; op < OPS; op++) {
        best[op] = 1e9;
        for (int b = 0; b < PASSES; b++) {
            double t = pass(op);
            if (t < best[op]) best[op] = t;
        }
    }
}

// How many slots are looked at on the average, to find a path and to find none, over the stores of n records.
static void steps(int pattern, size_t n, uint64_t by, double mean[2]) {
    static uint32_t length[ALL];
    uint64_t bits[4], sum[2] = {0, 0};
    for (size_t s = 0; s < ALL / n; s++) {
        memset(length, 0, n * sizeof *length);
        for (size_t k = s * n; k < (s + 1) * n; k++) path_of(pattern, k, bits), sum[HIT] += ++length[home(n, by, bits)];
        for (size_t k = s * n; k < (s + 1) * n; k++) path_of(pattern, k + ALL, bits), sum[MISS] += length[home(n, by, bits)];
    }
    mean[HIT] = (double)sum[HIT] / ALL, mean[MISS] = (double)sum[MISS] / ALL;
}

static double worst(int pattern, int op) {
    uint64_t state = 77;
    double most = 0, mean[2];
    for (int i = 0; i < SALTS; i++) {
        steps(pattern, ALL, next_random(&state), mean);
        if (mean[op] > most) most = mean[op];
    }
    return most;
}

int main(int argc, char **argv) {
    memory = aligned_alloc(1 << 21, (size_t)ALL * PLACE * 8);
    if (argc > 1) madvise(memory, (size_t)ALL * PLACE * 8, MADV_HUGEPAGE);
    memset(memory, 0, (size_t)ALL * PLACE * 8);
    for (int pattern = 0; pattern < 4; pattern++) {
        double alone[OPS], spread[OPS], all[OPS], few_steps[2], all_steps[2];
        times(pattern, FEW, 1, alone);
        times(pattern, FEW, ALL / FEW, spread);
        times(pattern, ALL, 1, all);
        steps(pattern, FEW, salt, few_steps);
        steps(pattern, ALL, salt, all_steps);
        for (int op = 0; op < OPS; op++) {
            printf("| %s | %s | %.0f | %.0f | %.0f | %.2f | ", shared[pattern], ops[op], alone[op], spread[op], all[op], all[op] / spread[op]);
            if (op == PAIR) puts("| | |");
            else printf("%.2f | %.2f | %.2f |\n", few_steps[op], all_steps[op], worst(pattern, op));
        }
    }
    return 0;
}
