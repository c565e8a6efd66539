/* How much stack the library takes: each function is run on a stack of its own that was painted before, on random calls and on letters that go eight hops, and what is no
 * longer paint was used. The header's figures are tested: an argument prints what was used. */
#define _XOPEN_SOURCE 700
#define PAINTED_ROOM 1048576
#include <inttypes.h>
#include <stdio.h>

#include "traffic.h"

#include "../painted.h"

enum { CALLS = 1500 };

static struct station state;
static struct destination_request request;
static uint64_t number;
static volatile uint64_t seen; /* so that nothing is left out */

static void call(void) { seen = station_do(&state, number, request).refusal; }
static void told(void)
{
    static struct station_told list[STATION_LETTERS];
    seen = station_do_told(&state, list, STATION_LETTERS, number, request).letters;
}
static void uncoded(void) { seen = station_add_discarded_of(&state, number).refusal + station_expired_before_storing_of(&state, number).refusal; }
static void many(void)
{
    static uint64_t sent[STATION_EVENTS + 100][DESTINATION_EVENT_WORDS];
    struct destination_request listed[2] = {station_request(number, request), station_request(number + 1, request)};
    struct destination_outcome outcomes[2];
    seen = station_calls_of(&state, sent, STATION_EVENTS + 100, listed, 2, outcomes, 2).events;
}
static void numbers(void) { seen = station_numbers_of(&state).next; }
static void start(void) { seen = station_start_of(&state); }

static size_t most(size_t a, size_t b) { return a < b ? b : a; }

static int within(const char *what, size_t used, size_t limit, int shown)
{
    printf("%s: %s %zu bytes\n", what, used <= limit ? "at most" : "MORE THAN", limit);
    if (shown)
        fprintf(stderr, "%s: %zu\n", what, used);
    return used > limit;
}

static size_t done(uint64_t k, struct destination_request r)
{
    number = k;
    request = r;
    return taken(call);
}

/* A ring in which 1 to 6 have no call left: the letters of 0 make seven hops in vain, and arrive at 7; then 7 has none left either. */
static size_t ring(void)
{
    struct destination_id id = {9, 1, 1};
    struct destination_consumer c = {.id = id, .prefetch = 600, .selector = DESTINATION_NO_SELECTOR};
    struct destination_acknowledgement a = {.type = DESTINATION_POISON, .has_last = true};
    size_t used = taken(start);
    for (uint64_t k = 0; k < 8; k++)
        used = most(used, done(k, station_request_open(DESTINATION_QUEUE, 0, k == 0 ? 10000 : k == 7 ? 200 : 1, 0, 0, 0, (k + 1) % 8)));
    for (uint64_t k = 1; k < 8; k++)
        used = most(used, done(k, destination_request_join(c, 0)));
    used = most(used, done(0, destination_request_join(c, 0)));
    for (uint64_t i = 0; i < 400; i++)
        used = most(used, done(0, destination_request_enqueue((struct destination_entry){.persistent = true, .size = 5}, 1)));
    a.last = 100;
    used = most(used, done(0, destination_request_ack(id, a, 2)));
    a.last = 250;
    number = 0;
    request = destination_request_ack(id, a, 2);
    used = most(used, taken(told));
    a.last = 400;
    request = destination_request_ack(id, a, 2);
    return most(used, taken(many));
}

int main(int argc, char **argv)
{
    size_t calls = ring(), queries = most(taken(numbers), taken(start));
    struct station_numbered n;
    (void)argv;
    for (uint64_t k = 0; k < 8; k++)
        calls = most(calls, done(k, traffic_open(0)));
    for (uint64_t i = 0; i < CALLS; i++) {
        uint64_t k = below(8);
        calls = most(calls, done(k, one_in(50) ? traffic_open(i) : traffic(station_part_of(&state, k), i)));
        if (i % 50 == 0) {
            calls = most(calls, taken(uncoded));
            request = traffic(station_part_of(&state, k), i);
            calls = most(calls, taken(many));
            request = traffic(station_part_of(&state, k), i);
            calls = most(calls, taken(told));
            queries = most(queries, taken(numbers));
        }
    }
    n = station_numbers_of(&state);
    printf("refusal %" PRIu64 ", letters lost %s\n", n.refusal, n.lost != 0 ? "some" : "none");
    return within("a call", calls, STATION_STACK_CALL, argc > 1) | within("the numbers, a start", queries, STATION_STACK_NUMBERS, argc > 1);
}
