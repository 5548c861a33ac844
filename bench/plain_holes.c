/* The loads of takes and gives of crates/bench_ops, over a plain list of holes in order of place: first fit by going
   over the list, and a binary search for what is given back.

   Arguments: the words of the region, the turns before and those that are timed, and then of each load the numbers, the
   least and the greatest length, and the order (turns, stack or random). */
#include <inttypes.h>
#include <stdio.h>
#include <stdlib.h>
#include <string.h>
#include <time.h>

typedef struct { size_t place, len; } Range;

static Range *holes, *ranges;
static size_t count;

static uint64_t next(uint64_t seed) { return seed * 6364136223846793005u + 1442695040888963407u; }
static size_t pick(uint64_t seed, size_t below) { return (seed >> 33) % below; }

static size_t take(size_t len) {
    for (size_t i = 0; i < count; i++) {
        if (holes[i].len >= len) {
            size_t place = holes[i].place;
            holes[i].place += len;
            holes[i].len -= len;
            if (holes[i].len == 0) memmove(holes + i, holes + i + 1, (--count - i) * sizeof(Range));
            return place;
        }
    }
    return SIZE_MAX;
}

static void give(size_t place, size_t len) {
    size_t low = 0, high = count;
    while (low < high) {
        size_t middle = (low + high) / 2;
        if (holes[middle].place < place) low = middle + 1;
        else high = middle;
    }
    int joins_before = low > 0 && holes[low - 1].place + holes[low - 1].len == place;
    int joins_behind = low < count && holes[low].place == place + len;
    if (joins_before && joins_behind) {
        holes[low - 1].len += len + holes[low].len;
        memmove(holes + low, holes + low + 1, (--count - low) * sizeof(Range));
    } else if (joins_before) {
        holes[low - 1].len += len;
    } else if (joins_behind) {
        holes[low].place = place;
        holes[low].len += len;
    } else {
        memmove(holes + low + 1, holes + low, (count++ - low) * sizeof(Range));
        holes[low] = (Range){place, len};
    }
}

static void turn(size_t number, size_t len) {
    if (ranges[number].len > 0) give(ranges[number].place, ranges[number].len);
    ranges[number].len = 0;
    size_t place = len > 0 ? take(len) : SIZE_MAX;
    if (place != SIZE_MAX) ranges[number] = (Range){place, len};
}

static void churn(size_t numbers, size_t least, size_t greatest, const char *order, size_t turns) {
    uint64_t seed = 7;
    for (size_t i = 0; i < turns; i++) {
        seed = next(next(seed));
        size_t len = least + pick(seed, greatest - least + 1);
        if (order[0] == 'r') turn(pick(next(seed), numbers), len);
        else if (order[0] == 's' && i / numbers % 2 == 1) turn(numbers - 1 - i % numbers, 0);
        else turn(i % numbers, len);
    }
}

static void run(size_t region, size_t first, size_t turns, char **load) {
    size_t numbers = strtoull(load[0], 0, 10), least = strtoull(load[1], 0, 10), greatest = strtoull(load[2], 0, 10);
    holes = malloc((numbers + 2) * sizeof(Range));
    ranges = calloc(numbers, sizeof(Range));
    holes[0] = (Range){0, region};
    count = 1;
    churn(numbers, least, greatest, load[3], first * numbers);
    struct timespec begin, end;
    clock_gettime(CLOCK_MONOTONIC, &begin);
    churn(numbers, least, greatest, load[3], turns);
    clock_gettime(CLOCK_MONOTONIC, &end);
    size_t free_words = 0, widest = 0;
    for (size_t i = 0; i < count; i++) {
        free_words += holes[i].len;
        widest = holes[i].len > widest ? holes[i].len : widest;
    }
    printf("%zu %zu %zu %s: %zu words free in %zu holes, %zu in the widest\n", numbers, least, greatest, load[3],
           free_words, count, widest);
    printf("%lld nanoseconds for %zu turns\n",
           (end.tv_sec - begin.tv_sec) * 1000000000ll + (end.tv_nsec - begin.tv_nsec), turns);
    free(holes);
    free(ranges);
}

int main(int argc, char **argv) {
    if (argc < 4 || (argc - 4) % 4 != 0) return 2;
    size_t region = strtoull(argv[1], 0, 10), first = strtoull(argv[2], 0, 10), turns = strtoull(argv[3], 0, 10);
    for (int i = 4; i < argc; i += 4) run(region, first, turns, argv + i);
    return 0;
}
