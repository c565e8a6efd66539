/* Many calls at once beside the calls one after another: random lists of requests on what real calls have left, some of them on a station with a damaged word or with arrays that
 * are short, with lists of any length. Outcomes, events and every word of the two stations must be the same.
 *
 *     many [SEED [LISTS]]
 */
#include <inttypes.h>
#include <stdio.h>
#include <stdlib.h>

#include "traffic.h"

enum { MOST = 40, ROOM = STATION_EVENTS + 200 };

/* a station, and what a list of calls gives; nobody may touch the last places */
struct run {
    struct station state;
    struct destination_outcome outcomes[MOST + 1];
    uint64_t events[ROOM + 1][DESTINATION_EVENT_WORDS];
};

static struct run single, together;
static struct station clean;         /* what real calls have left */
static const struct station *looked; /* what the requests are chosen by: damaged words lead anywhere */
static struct destination_request requests[MOST];
static uint64_t seed = 1, lists, clock_now;
static uint64_t not_begun, out_of_places, out_of_room, calls_done, accepted, sent, opened, letters;

static _Noreturn void wrong(const char *what)
{
    printf("seed %" PRIu64 ", list %" PRIu64 ": %s\n", seed, lists, what);
    exit(1);
}

/* how much of a list is lent */
struct lent {
    size_t heads, own, room, calls, places;
};

static struct lent some_lengths(void)
{
    struct lent n = {STATION_HEAD_WORDS - one_in(40), STATION_OWN_WORDS - one_in(40), one_in(4) ? below(ROOM + 1) : ROOM - below(100), below(MOST + 1),
                     one_in(4) ? below(MOST + 1) : MOST};
    return n;
}

static struct station_part part_of(size_t k)
{
    static struct station empty;
    return station_part_of(station_is_open(looked, k) ? looked : &empty, k);
}

/* a request with its destination's number; often a low one, sometimes one that is none, and sometimes a code that is none */
static struct destination_request some_request(void)
{
    uint64_t k = below(8) & below(8), number = one_in(40) ? 8 + below(UINT64_MAX / 256 - 7) : k;
    struct destination_request r = one_in(30) ? traffic_open(clock_now) : traffic(part_of(k), clock_now);
    if (one_in(60))
        r.code = below(256);
    return station_request(number, r);
}

static struct destination_outcome call(struct lent n, struct destination_request r, size_t at)
{
    struct station *s = &single.state;
    uint64_t number = r.code / 256;
    r.code %= 256;
    return station_call(s->heads, n.heads, s->subs, STATION_CONSUMERS, s->rows, STATION_ROWS, s->own, n.own, single.events + at, n.room - at, number, r);
}

/* the calls one after another: how many are done, and how many events stand there */
static struct destination_done one_by_one(struct lent n)
{
    const struct station *s = &single.state;
    bool begun = station_numbers(s->heads, n.heads, s->subs, STATION_CONSUMERS, s->rows, STATION_ROWS, s->own, n.own).refusal == 0;
    struct destination_done d = {0, 0};
    bool goes_on = begun;
    for (size_t i = 0; i < n.calls; i++) {
        clock_now += below(2);
        requests[i] = some_request();
        goes_on = goes_on && i < n.places && n.room >= d.events + STATION_EVENTS;
        if (!goes_on)
            continue;
        struct destination_outcome o = single.outcomes[i] = call(n, requests[i], d.events);
        d.calls++;
        d.events += o.events;
        accepted += o.refusal == 0;
        opened += o.refusal == 0 && requests[i].code % 256 == DESTINATION_OPEN;
    }
    not_begun += !begun;
    out_of_places += begun && d.calls < n.calls && d.calls == n.places;
    out_of_room += begun && d.calls < n.calls && d.calls < n.places;
    return d;
}

static void list(void)
{
    struct station *s = &together.state;
    struct lent n = some_lengths();
    memset(single.outcomes, 0x5A, sizeof single.outcomes);
    memcpy(&together, &single, sizeof single);
    struct destination_done e = one_by_one(n);
    struct destination_done d = station_calls(s->heads, n.heads, s->subs, STATION_CONSUMERS, s->rows, STATION_ROWS, s->own, n.own, together.events, n.room, requests,
                                              n.calls, together.outcomes, n.places);
    if (d.calls != e.calls || d.events != e.events)
        wrong("another number of calls or of events");
    if (memcmp(&single, &together, sizeof single) != 0)
        wrong("other outcomes, events or another station");
    calls_done += d.calls;
    sent += d.events;
    for (size_t i = 0; i < d.events; i++)
        letters += STATION_EVENT_KIND(together.events[i]) == DESTINATION_DEAD_LETTER;
}

static void new_station(void)
{
    if (station_start_of(&single.state) != 0)
        wrong("a start is refused");
    for (uint64_t k = 0; k < 8; k++)
        if (!one_in(4) && station_do(&single.state, k, traffic_open(clock_now)).refusal != 0)
            wrong("an open is refused");
}

static void damage(void)
{
    uint64_t *w = one_in(2) ? &single.state.own[below(STATION_OWN_WORDS)] : &single.state.heads[DESTINATION_HEAD_WORDS * below(8) + below(17)];
    *w = one_in(2) ? any() : *w + 1;
}

int main(int argc, char **argv)
{
    uint64_t many = argc > 2 ? strtoull(argv[2], NULL, 10) : 600;
    seed = argc > 1 ? strtoull(argv[1], NULL, 10) : 1;
    random_state = seed;
    for (size_t i = 0; i < sizeof single / 8; i++)
        ((uint64_t *)(void *)&single)[i] = any();
    for (; lists < many; lists++) {
        if (lists % 60 == 0)
            new_station();
        bool damaged = one_in(8);
        looked = damaged ? &clean : &single.state;
        memcpy(&clean, &single.state, sizeof clean);
        if (damaged)
            damage();
        list();
        if (damaged)
            memcpy(&single.state, &clean, sizeof clean);
    }
    printf("%" PRIu64 " lists, %" PRIu64 " calls, %" PRIu64 " accepted, %" PRIu64 " opens, %" PRIu64 " events, %" PRIu64 " of them dead letters\n", lists, calls_done, accepted,
           opened, sent, letters);
    printf("not begun %" PRIu64 ", out of places %" PRIu64 ", out of room %" PRIu64 "\n", not_begun, out_of_places, out_of_room);
    return 0;
}
