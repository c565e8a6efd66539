/* The library of layouts from C. Without an argument: cases of document 02 with their answers, and random tables, whose answers are compared
 * with those of a scan of all layouts. With the argument `times`: how long a check and a lookup of 64 rows take. */
#define _POSIX_C_SOURCE 199309L
#include <inttypes.h>
#include <stdio.h>
#include <stdlib.h>
#include <string.h>
#include <time.h>

#include "layouts.h"

/* the declarations, as the library has them */
static size_t (*const rows_of)(void) = layouts_rows;
static struct layouts_checked (*const check_of)(const uint64_t (*)[3], size_t) = layouts_check;
static struct layouts_checked (*const lookup_of)(const uint64_t (*)[3], size_t, uint64_t) = layouts_lookup;

static uint64_t table[LAYOUTS_ROWS + 2][3];

static struct layouts_checked check(size_t rows)
{
    return check_of((const layouts_row *)table, rows);
}

static struct layouts_checked look(size_t rows, uint64_t layout)
{
    return lookup_of((const layouts_row *)table, rows, layout);
}

static void set(size_t i, uint64_t first, uint64_t last, uint64_t selector)
{
    table[i][0] = first;
    table[i][1] = last;
    table[i][2] = selector;
}

/* ---- a second reading of the paper: each layout is looked at */

static unsigned count[LAYOUTS_MOST + 1];

static struct layouts_checked scan(size_t rows)
{
    struct layouts_checked r = {LAYOUTS_ARGUMENTS, 0};
    if (rows > LAYOUTS_ROWS)
        return r;
    for (size_t i = 0; i < rows; i++)
        if (table[i][0] > LAYOUTS_MOST || table[i][1] > LAYOUTS_MOST || table[i][2] >= LAYOUTS_SELECTORS || table[i][0] > table[i][1])
            return r;
    memset(count, 0, sizeof count);
    for (size_t i = 0; i < rows; i++)
        for (uint64_t l = table[i][0]; l <= table[i][1]; l++)
            count[l]++;
    for (r.refusal = LAYOUTS_GAP; r.answer <= LAYOUTS_MOST; r.answer++)
        if (count[r.answer] == 0)
            return r;
    r.answer = 0;
    for (r.refusal = LAYOUTS_OVERLAP; r.answer <= LAYOUTS_MOST; r.answer++)
        if (count[r.answer] > 1)
            return r;
    r.refusal = LAYOUTS_ACCEPTED;
    r.answer = 0;
    return r;
}

static struct layouts_checked scan_lookup(struct layouts_checked checked, size_t rows, uint64_t layout)
{
    struct layouts_checked r = {LAYOUTS_ARGUMENTS, 0};
    if (layout > LAYOUTS_MOST)
        return r;
    if (checked.refusal != LAYOUTS_ACCEPTED)
        return checked;
    r.refusal = LAYOUTS_ACCEPTED;
    for (size_t i = 0; i < rows; i++)
        if (table[i][0] <= layout && layout <= table[i][1])
            r.answer |= UINT64_C(1) << table[i][2];
    return r;
}

static int same(struct layouts_checked a, struct layouts_checked b)
{
    return a.refusal == b.refusal && a.answer == b.answer;
}

/* ---- random tables */

static uint64_t seed = UINT64_C(88172645463325252);

static uint64_t any(uint64_t below)
{
    seed ^= seed << 13;
    seed ^= seed >> 7;
    seed ^= seed << 17;
    return seed % below;
}

static int rising(const void *a, const void *b)
{
    uint64_t x = *(const uint64_t *)a, y = *(const uint64_t *)b;
    return x < y ? -1 : x > y;
}

/* a good table of n rows, by rising layouts */
static void good(size_t n)
{
    uint64_t cut[LAYOUTS_ROWS];
    int apart = 0;
    while (!apart) {
        cut[0] = 0;
        for (size_t i = 1; i < n; i++)
            cut[i] = 1 + any(LAYOUTS_MOST);
        qsort(cut, n, sizeof cut[0], rising);
        apart = 1;
        for (size_t i = 1; i < n; i++)
            apart &= cut[i] != cut[i - 1];
    }
    for (size_t i = 0; i < n; i++)
        set(i, cut[i], i + 1 < n ? cut[i + 1] - 1 : LAYOUTS_MOST, any(LAYOUTS_SELECTORS));
}

static void swap(size_t i, size_t j)
{
    layouts_row row;
    memcpy(row, table[i], sizeof row);
    memcpy(table[i], table[j], sizeof row);
    memcpy(table[j], row, sizeof row);
}

static void shuffle(size_t n)
{
    for (size_t i = n; i > 1; i--)
        swap(i - 1, any(i));
}

static void turn(size_t n)
{
    for (size_t i = 0; i < n / 2; i++)
        swap(i, n - 1 - i);
}

/* one change to a good table, or none; gives the number of rows */
static size_t change(size_t n)
{
    size_t i = any(n);
    switch (any(8)) {
    case 0:
        return n;
    case 1:
        table[i][any(3)] += any(3);
        return n;
    case 2:
        table[i][any(3)] -= any(3);
        return n;
    case 3:
        table[i][1] = any(LAYOUTS_MOST + 1);
        return n;
    case 4:
        table[i][0] = any(LAYOUTS_MOST + 1);
        return n;
    case 5:
        swap(i, n - 1);
        return n - 1;
    case 6:
        set(n, any(LAYOUTS_MOST + 1), 0, any(LAYOUTS_SELECTORS + 1));
        table[n][1] = table[n][0] + any(100);
        return n + 1;
    default:
        table[i][any(3)] = any(UINT64_MAX);
        return n;
    }
}

static int compare(void)
{
    unsigned by[LAYOUTS_OVERLAP + 1] = {0}, looked = 0, differ = 0;
    for (int k = 0; k < 20000; k++) {
        size_t n = 1 + any(LAYOUTS_ROWS);
        good(n);
        n = change(n);
        shuffle(n);
        struct layouts_checked expected = scan(n);
        by[expected.refusal]++;
        differ += !same(check(n), expected);
        for (int j = 0; j < 20; j++) {
            uint64_t layout = any(LAYOUTS_MOST + 60);
            looked += expected.refusal == LAYOUTS_ACCEPTED && layout <= LAYOUTS_MOST;
            differ += !same(look(n, layout), scan_lookup(expected, n, layout));
        }
    }
    printf("random tables: accepted %u, refused 3 %u, 12 %u, 13 %u; match words %u; differences %u\n", by[0], by[3], by[12], by[13], looked,
           differ);
    return differ != 0;
}

/* ---- cases */

static void show(const char *what, struct layouts_checked r)
{
    printf("%s: %" PRIu64 " %" PRIu64 "\n", what, r.refusal, r.answer);
}

static void blocks(size_t n)
{
    for (size_t i = 0; i < n; i++)
        set(i, 1024 * i, 1024 * i + 1023, i % LAYOUTS_SELECTORS);
}

static void cases(void)
{
    printf("rows %zu, sizes %zu and %zu\n", rows_of(), sizeof(layouts_row), sizeof(struct layouts_checked));
    show("no rows", check(0));
    set(0, 0, 65535, 0);
    show("one row of all", check(1));
    show("its match word for 65535", look(1, 65535));
    show("layout 65536", look(1, 65536));
    set(1, 512, 600, 4);
    show("and a row within it", check(2));
    show("a lookup there", look(2, 0));
    set(1, 0, 65535, 0);
    show("the same row twice", check(2));
    set(0, 0, 65534, 0);
    show("65535 left out", check(1));
    set(0, 1, 65535, 63);
    show("0 left out", check(1));
    set(1, 30000, 40000, 5);
    show("0 left out, and an overlap", check(2));
    set(1, 9, 8, 5);
    show("a first above its last", check(2));
    set(1, 0, 0, 64);
    show("selector 64", check(2));
    set(1, 0, 65536, 0);
    show("a last of 65536", check(2));
    set(1, 0, 0, 7);
    show("0 by its own row", check(2));
    show("its match word for 0", look(2, 0));
    show("and for 1", look(2, 1));
    blocks(64);
    show("64 rows of 1024", check(64));
    show("the match word for 64512", look(64, 64512));
    show("63 of them", check(63));
    set(64, 65535, 65535, 0);
    show("65 rows", check(65));
}

/* ---- times */

static double now(void)
{
    struct timespec t;
    clock_gettime(CLOCK_MONOTONIC, &t);
    return (double)t.tv_sec * 1e9 + (double)t.tv_nsec;
}

static double best(int looking)
{
    double least = 1e18;
    for (int k = 0; k < 200; k++) {
        double start = now();
        for (int i = 0; i < 1000; i++) {
            if (looking)
                look(LAYOUTS_ROWS, 65535);
            else
                check(LAYOUTS_ROWS);
            __asm__ volatile("" ::: "memory");
        }
        double each = (now() - start) / 1000;
        if (each < least)
            least = each;
    }
    return least;
}

static int timed(const char *what)
{
    double checked = best(0), looked = best(1);
    printf("%-24s check %5.2f, lookup %5.2f microseconds, refusal %" PRIu64 "\n", what, checked / 1000, looked / 1000, check(LAYOUTS_ROWS).refusal);
    return checked >= 10000 || looked >= 10000;
}

static int times(void)
{
    int slow = 0;
    good(LAYOUTS_ROWS);
    slow |= timed("64 rows, rising");
    turn(LAYOUTS_ROWS);
    slow |= timed("falling");
    shuffle(LAYOUTS_ROWS);
    slow |= timed("shuffled");
    good(LAYOUTS_ROWS);
    turn(LAYOUTS_ROWS);
    table[0][1]--;
    slow |= timed("falling, a gap");
    table[0][1]++;
    table[0][0]--;
    slow |= timed("falling, an overlap");
    good(LAYOUTS_ROWS);
    table[LAYOUTS_ROWS - 1][0]--;
    slow |= timed("rising, an overlap");
    return slow;
}

int main(int argc, char **argv)
{
    if (argc == 2 && strcmp(argv[1], "times") == 0)
        return times();
    cases();
    return compare();
}
