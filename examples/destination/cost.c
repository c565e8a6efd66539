/* What a cycle of calls of a destination costs, alone and in batches: `valgrind --tool=callgrind` counts the instructions of two runs, and what the longer one has more, by its cycles
 * more, is a cycle (docs/DESIGN-PASS.md).
 *
 *     cost [single|batch queue|topic|pulls|mixed ROWS CYCLES]
 *
 * Four consumers, ROWS entries (of a topic, copies). A cycle is an acknowledgement by each, of one entry, and an enqueue (pulls: a pull, an acknowledgement and an enqueue; mixed: a
 * no-local consumer, expiring entries, sweeps and producers besides). */
#include <inttypes.h>
#include <stdio.h>
#include <stdlib.h>
#include <string.h>

#include "destination.h"

enum { CONSUMERS = 4, MOST = 128, FULL = 100, ROOM = 4096 };

static struct destination d;
static uint64_t events[ROOM][DESTINATION_EVENT_WORDS];
static struct destination_request requests[MOST];
static struct destination_outcome outcomes[MOST];
static size_t made;
static bool batch;

static void must(bool holds)
{
    if (!holds) {
        printf("a call is refused\n");
        exit(1);
    }
}

/* does the calls that were made */
static void flush(void)
{
    if (made == 0)
        return;
    if (batch)
        must(destination_calls_of(&d, events, ROOM, requests, made, outcomes, MOST).calls == made);
    else
        for (size_t i = 0; i < made; i++)
            outcomes[i] = destination_do(&d, requests[i]);
    for (size_t i = 0; i < made; i++)
        must(outcomes[i].refusal == 0);
    made = 0;
}

static void call(uint64_t code, uint64_t a, uint64_t b, uint64_t c, uint64_t e, uint64_t f, uint64_t g, uint64_t h, uint64_t i)
{
    requests[made++] = (struct destination_request){code, {a, b, c, e, f, g, h, i}};
    if (made >= FULL)
        flush();
}

static void enqueue(uint64_t sequence, uint64_t expiration, uint64_t producer, uint64_t clock)
{
    call(DESTINATION_ENQUEUE, sequence, expiration, 1, producer, ~UINT64_C(0), 0, clock, 100);
}

static void ack(uint64_t consumer, uint64_t type, uint64_t last)
{
    call(DESTINATION_ACK, consumer, 1, 1, type + DESTINATION_HAS_LAST, 0, last, 2, 0);
}

int main(int argc, char **argv)
{
    bool told = argc == 5;
    const char *kind = told ? argv[2] : "queue";
    bool topic = strcmp(kind, "topic") == 0, mixed = strcmp(kind, "mixed") == 0, pulls = strcmp(kind, "pulls") == 0;
    uint64_t rows = told ? strtoull(argv[3], NULL, 10) : 64, cycles = told ? strtoull(argv[4], NULL, 10) : 300, next = 1, done = 1;
    call(DESTINATION_OPEN, topic, 0, UINT64_C(1) << 40, 0, 0, 0, 0, 0);
    flush();
    for (uint64_t j = 1; j <= CONSUMERS; j++)
        call(DESTINATION_JOIN, j, 1, 1, pulls ? 0 : 8, mixed && j == 4 ? 5 : DESTINATION_NO_SELECTOR, mixed && j == 3, 1, 0);
    while (next <= (topic ? rows / CONSUMERS : rows))
        enqueue(next++, 0, 7, 1);
    flush();
    batch = !told || strcmp(argv[1], "batch") == 0;
    for (uint64_t i = 0; i < cycles; i++) {
        if (pulls) {
            call(DESTINATION_PULL, 1 + i % CONSUMERS, 1, 1, 0, 2, 0, 0, 0);
            ack(1 + i % CONSUMERS, DESTINATION_STANDARD, done++);
        } else {
            for (uint64_t j = 1; j <= CONSUMERS; j++)
                ack(j, topic ? DESTINATION_STANDARD : DESTINATION_INDIVIDUAL, done);
            done++;
        }
        enqueue(next++, mixed && i % 3 == 0 ? 5 + i / 8 : 0, mixed ? 1 + i % 4 : 7, mixed ? 2 + i / 8 : 2);
        if (mixed && i % 16 == 0)
            call(DESTINATION_SWEEP, 2 + i / 8, 8, 0, 0, 0, 0, 0, 0);
        if (mixed && i % 8 == 0) {
            call(DESTINATION_ADD_PRODUCER, 50 + i % 16, 1, 1, 0, 0, 0, 0, 0);
            call(DESTINATION_DUPLICATE, 50 + i % 16, 1, 1, i, 0, 0, 0, 0);
            call(DESTINATION_REMOVE_PRODUCER, 50 + i % 16, 1, 1, 2 + i / 8, 0, 0, 0, 0);
        }
    }
    flush();
    printf("%s, %" PRIu64 " rows: %" PRIu64 " cycles\n", kind, rows, cycles);
    return 0;
}
