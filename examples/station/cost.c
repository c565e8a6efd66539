/* What a call of a station costs, alone and in a batch: `valgrind --tool=callgrind` counts the instructions of two runs, and what the longer one has more, by its calls more, is a call
 * (docs/SPEED.md).
 *
 *     cost [single|batch OPEN ROWS CYCLES]
 *
 * OPEN queues with ROWS entries each. In a cycle of two calls a consumer at the first queue acknowledges an entry and gets the next, and one is enqueued. A batch has 128 cycles. */
#include <inttypes.h>
#include <stdio.h>
#include <stdlib.h>
#include <string.h>

#include "station.h"

enum { CYCLES = 128, CALLS = 2 * CYCLES };

static struct station s;
static uint64_t events[STATION_EVENTS + CALLS][DESTINATION_EVENT_WORDS];
static struct destination_request requests[CALLS];
static struct destination_outcome outcomes[CALLS];
static const struct destination_id id = {9, 1, 1};
static const struct destination_entry entry = {.persistent = true, .producer = 7, .size = 100};

static void must(bool holds)
{
    if (!holds) {
        printf("a call is refused\n");
        exit(1);
    }
}

/* the number of the i-th entry of the first queue, which has the first ones and, after those of the others, all later ones */
static int64_t number(uint64_t i, uint64_t rows, uint64_t open)
{
    return (int64_t)(1 + (i < rows ? i : i + rows * (open - 1)));
}

static void fill(uint64_t open, uint64_t rows)
{
    struct destination_consumer c = {.id = id, .prefetch = 1, .selector = DESTINATION_NO_SELECTOR};
    must(station_start_of(&s) == 0);
    for (uint64_t k = 0; k < open; k++) {
        must(station_open(&s, k, DESTINATION_QUEUE, 0, DESTINATION_CALL_LIMIT_MOST, 0, 0, 0, STATION_NONE).refusal == 0);
        for (uint64_t n = 0; n < rows; n++)
            must(station_enqueue(&s, k, entry, 1).refusal == 0);
    }
    must(station_join(&s, 0, c, 2).events == 1);
}

static void make(bool batch, size_t n)
{
    if (batch)
        must(station_calls_of(&s, events, STATION_EVENTS + CALLS, requests, n, outcomes, CALLS).calls == n);
    else
        for (size_t k = 0; k < n; k++)
            outcomes[k] = station_do(&s, 0, requests[k]);
    for (size_t k = 0; k < n; k++)
        must(outcomes[k].refusal == 0);
}

int main(int argc, char **argv)
{
    bool told = argc == 5, batch = !told || strcmp(argv[1], "batch") == 0;
    uint64_t open = told ? strtoull(argv[2], NULL, 10) : 8, rows = told ? strtoull(argv[3], NULL, 10) : 64, cycles = told ? strtoull(argv[4], NULL, 10) : 300, i = 0;
    fill(open, rows);
    while (i < cycles) {
        size_t n = 0;
        for (; n < CALLS && i < cycles; n += 2, i++) {
            struct destination_acknowledgement a = {.type = DESTINATION_STANDARD, .has_last = true, .last = number(i, rows, open)};
            requests[n] = destination_request_ack(id, a, 3); /* of destination 0, whose number adds nothing */
            requests[n + 1] = destination_request_enqueue(entry, 3);
        }
        make(batch, n);
    }
    printf("%" PRIu64 " open, %" PRIu64 " rows: %" PRIu64 " calls\n", open, rows, 2 * cycles);
    return 0;
}
