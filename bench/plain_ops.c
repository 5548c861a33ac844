/* The plain loops that bench/ops.py compares the vector and segment instructions with: the same vectors, the same rounds,
 * and for each instruction of a round a line with its name, a tab and picoseconds an element. */
#include <stdint.h>
#include <stdio.h>
#include <stdlib.h>
#include <time.h>

enum { ROUNDS = 41, REPEATS = 1000, MOST_WORDS = 30000 };

static int64_t left[MOST_WORDS], bits[MOST_WORDS], alike[MOST_WORDS], flags[MOST_WORDS], indices[MOST_WORDS],
    descriptor[MOST_WORDS], out[MOST_WORDS], counts[MOST_WORDS];
/* The divisors, which the compiler is not to know for the dividends. */
static int64_t *volatile divisors = left;
static int64_t words, segments;
static uint64_t state = 1;

static uint64_t below(uint64_t bound) {
    state = state * 6364136223846793005u + 1442695040888963407u;
    return (state >> 33) % bound;
}

static double now(void) {
    struct timespec t;
    clock_gettime(CLOCK_MONOTONIC, &t);
    return 1e9 * (double)t.tv_sec + (double)t.tv_nsec;
}

#define ROW(name, ...)                                                            \
    do {                                                                           \
        int repeats = words == 1 ? REPEATS : 1;                                    \
        double start = now();                                                      \
        for (int repeat = 0; repeat < repeats; repeat++) {                         \
            __VA_ARGS__                                                            \
            __asm__ volatile("" : : : "memory");                                   \
        }                                                                          \
        printf("%s\t%.0f\n", name, 1000.0 * (now() - start) / (double)(words * repeats)); \
    } while (0)

#define EACH(...) for (int64_t i = 0; i < words; i++) out[i] = (__VA_ARGS__);

static int any_zero(const int64_t *by) {
    int any = 0;
    for (int64_t i = 0; i < words; i++) any |= by[i] == 0;
    return any;
}

static int any_bad_shift(const int64_t *by) {
    int any = 0;
    for (int64_t i = 0; i < words; i++) any |= (uint64_t)by[i] > 63;
    return any;
}

static void elementwise_rows(void) {
    ROW("+ INT", EACH((int64_t)((uint64_t)left[i] + (uint64_t)left[i])));
    ROW("* INT", EACH((int64_t)((uint64_t)left[i] * (uint64_t)left[i])));
    ROW("/ INT", const int64_t *by = divisors;
        if (!any_zero(by)) EACH(by[i] == -1 ? (int64_t)(0 - (uint64_t)left[i]) : left[i] / by[i]));
    ROW("LSHIFT INT", if (!any_bad_shift(bits)) EACH((int64_t)((uint64_t)left[i] << bits[i])));
    ROW("LSHIFT INT by one number", if (!any_bad_shift(alike)) EACH((int64_t)((uint64_t)left[i] << alike[i])));
    for (int64_t i = 0; i < words; i++) flags[i] = below(2) != 0;
    ROW("< INT", EACH(left[i] < bits[i]));
    ROW("XOR INT", EACH(left[i] ^ bits[i]));
    ROW("NOT BOOL", EACH(flags[i] == 0));
    ROW("SELECT INT", EACH(flags[i] != 0 ? left[i] : bits[i]));
    ROW("I_TO_B", EACH(left[i] != 0));
}

#define SEGMENTS(...)                                                             \
    for (int64_t s = 0, begin = 0; s < segments; s++) {                            \
        int64_t length = descriptor[s], end = begin + length;                      \
        __VA_ARGS__                                                                \
        begin = end;                                                               \
    }

static int64_t total(void) {
    int64_t sum = 0;
    for (int64_t s = 0; s < segments; s++) sum += descriptor[s];
    return sum;
}

static int64_t count_set(void) {
    int64_t count = 0;
    for (int64_t i = 0; i < words; i++) count += flags[i] != 0;
    return count;
}

static int indices_fit(void) {
    int outside = 0;
    SEGMENTS(for (int64_t i = begin; i < end; i++) outside |= (uint64_t)indices[i] >= (uint64_t)length;)
    return !outside;
}

/* marks each named place, and tells whether one is named twice */
static int marks_twice(void) {
    int twice = 0;
    SEGMENTS(for (int64_t i = begin; i < end; i++) out[i] = 0;
             for (int64_t i = begin; i < end; i++) {
                 twice |= out[begin + indices[i]] == 1;
                 out[begin + indices[i]] = 1;
             })
    return twice;
}

static void permute(void) {
    if (indices_fit() && !marks_twice()) SEGMENTS(for (int64_t i = begin; i < end; i++) out[begin + indices[i]] = left[i];)
}

static void permute_over(void) {
    if (total() == words && indices_fit() && !marks_twice()) {
        for (int64_t i = 0; i < words; i++) out[i] = left[i];
        SEGMENTS(for (int64_t i = begin; i < end; i++) out[begin + indices[i]] = left[i];)
    }
}

static void make_indices(int mixed) {
    SEGMENTS(int64_t *part = indices + begin; for (int64_t i = 0; i < length; i++) part[i] = i;
             for (int64_t i = 0; mixed && i < length; i++) {
                 int64_t other = (int64_t)below((uint64_t)i + 1), kept = part[i];
                 part[i] = part[other];
                 part[other] = kept;
             })
}

static void segment_rows(void) {
    ROW("+_SCAN INT", SEGMENTS(uint64_t sum = 0; for (int64_t i = begin; i < end; i++) {
        out[i] = (int64_t)sum;
        sum += (uint64_t)left[i];
    }));
    ROW("MAX_SCAN INT", SEGMENTS(int64_t most = INT64_MIN; for (int64_t i = begin; i < end; i++) {
        out[i] = most;
        most = left[i] > most ? left[i] : most;
    }));
    ROW("+_REDUCE INT", SEGMENTS(uint64_t sum = 0; for (int64_t i = begin; i < end; i++) sum += (uint64_t)left[i];
                                 out[s] = (int64_t)sum;));
    ROW("MAX_REDUCE INT",
        SEGMENTS(int64_t most = INT64_MIN; for (int64_t i = begin; i < end; i++) most = left[i] > most ? left[i] : most;
                 out[s] = most;));
    ROW("DIST INT", if (total() == words) SEGMENTS(for (int64_t i = begin; i < end; i++) out[i] = bits[s];));
    ROW("INDEX", if (total() == words) SEGMENTS(uint64_t at = (uint64_t)bits[s]; for (int64_t i = begin; i < end; i++) {
        out[i] = (int64_t)at;
        at += (uint64_t)bits[s];
    }));
    make_indices(1);
    ROW("PERMUTE INT", permute(););
    ROW("BPERMUTE INT", if (total() == words && indices_fit())
                            SEGMENTS(for (int64_t i = begin; i < end; i++) out[i] = left[begin + indices[i]];));
    ROW("DPERMUTE INT", permute_over(););
    make_indices(0);
    ROW("PERMUTE INT rising", permute(););
    ROW("DPERMUTE INT rising", permute_over(););
    for (int64_t i = 0; i < words; i++) flags[i] = below(2) != 0;
    ROW("EXTRACT INT", SEGMENTS(if ((uint64_t)bits[s] >= (uint64_t)length) break; out[s] = left[begin + bits[s]];));
    ROW("PACK INT", int64_t most = count_set(), kept = 0; SEGMENTS(int64_t first = kept;
                                                                   for (int64_t i = begin; i < end; i++) {
                                                                       if (flags[i] != 0) out[kept++] = left[i];
                                                                   } counts[s] = kept - first;) if (kept != most) exit(1););
}

static void make_segments(int tens) {
    segments = 0;
    for (int64_t some = words; some > 0;) {
        int64_t length = 6 + (int64_t)below(9);
        if (!tens || length + 6 > some) length = some;
        descriptor[segments++] = length;
        some -= length;
    }
}

static void rows(int64_t count) {
    words = count;
    printf("of %ld\n", (long)words);
    elementwise_rows();
    printf("of %ld, in segments of ten\n", (long)words);
    make_segments(1);
    segment_rows();
    printf("of %ld, in one segment\n", (long)words);
    make_segments(0);
    segment_rows();
}

int main(void) {
    for (int64_t i = 0; i < MOST_WORDS; i++) {
        int64_t small = i % 1000;
        left[i] = i % 2 == 0 ? small + 1 : -small;
        bits[i] = i % 6;
        alike[i] = 3;
    }
    for (int round = 0; round < ROUNDS; round++) {
        rows(1);
        rows(100);
        rows(1000);
        rows(MOST_WORDS);
    }
    return 0;
}
