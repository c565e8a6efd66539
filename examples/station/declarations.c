/* The header beside the library: sizes, limits, the order of arguments and the words of the calls. */
#include <inttypes.h>
#include <stdio.h>
#include <stdlib.h>
#include <string.h>

#include "station.h"

static struct station s, other;
static int checks;

#define CHECK(what)                                                  \
    do {                                                             \
        checks++;                                                    \
        if (!(what)) {                                               \
            printf("line %d does not hold: %s\n", __LINE__, #what); \
            exit(1);                                                 \
        }                                                            \
    } while (0)

static void limits(void)
{
    CHECK(station_head_words() == STATION_HEAD_WORDS && STATION_HEAD_WORDS == STATION_DESTINATIONS * DESTINATION_HEAD_WORDS);
    CHECK(station_consumers() == STATION_CONSUMERS && STATION_CONSUMERS == STATION_DESTINATIONS * DESTINATION_CONSUMERS);
    CHECK(station_rows() == STATION_ROWS && STATION_ROWS == STATION_DESTINATIONS * DESTINATION_ROWS);
    CHECK(station_own_words() == STATION_OWN_WORDS);
    CHECK(station_events() == STATION_EVENTS);
    CHECK(sizeof(struct station) == 1128672 && sizeof(struct station_numbered) == 24);
    CHECK(sizeof(struct station_told) == 24 && offsetof(struct station_told, got) == 8 && offsetof(struct station_told, destination) == 16);
    CHECK(sizeof(struct station_told_outcome) == 32 && offsetof(struct station_told_outcome, answer) == 8 && offsetof(struct station_told_outcome, events) == 16 &&
          offsetof(struct station_told_outcome, letters) == 24);
    CHECK(STATION_LETTERS == DESTINATION_ROWS && STATION_LOST == STATION_DESTINATIONS);
}

/* one array shorter than it must be, the others not: 1 */
static void shorter(void)
{
    for (size_t i = 0; i < 6; i++) {
        size_t h = STATION_HEAD_WORDS - (i == 1), c = STATION_CONSUMERS - (i == 2), r = STATION_ROWS - (i == 3), o = STATION_OWN_WORDS - (i == 4),
               e = STATION_EVENTS - (i == 5);
        uint64_t refusal = i == 0 ? 0 : 1;
        const struct station *k = &s;
        struct destination_request sweep = destination_request_sweep(1, 2);
        struct destination_request rejects = destination_request_ack((struct destination_id){9, 1, 1}, (struct destination_acknowledgement){.type = DESTINATION_POISON}, 1);
        struct station_told told;
        CHECK(station_start_of(&s) == 0 && station_open(&s, 4, DESTINATION_QUEUE, 0, 100, 0, 0, 0, 8).refusal == 0);
        CHECK(station_call(s.heads, h, s.subs, c, s.rows, r, s.own, o, s.events, e, 4, sweep).refusal == refusal);
        CHECK(station_call_told(s.heads, h, s.subs, c, s.rows, r, s.own, o, s.events, e, &told, 1, 4, sweep).refusal == refusal);
        CHECK(station_call_told(s.heads, h, s.subs, c, s.rows, r, s.own, o, s.events, e, &told, 1, 4, rejects).refusal == refusal);
        struct destination_request listed = station_request(4, sweep);
        struct destination_outcome outcome;
        CHECK(station_calls(s.heads, h, s.subs, c, s.rows, r, s.own, o, s.events, e, &listed, 1, &outcome, 1).calls == (refusal == 0));
        CHECK(station_add_discarded(s.heads, h, s.subs, c, s.rows, r, s.own, o, s.events, e, 4).refusal == refusal);
        CHECK(station_expired_before_storing(s.heads, h, s.subs, c, s.rows, r, s.own, o, s.events, e, 4).refusal == refusal);
        CHECK(station_numbers(k->heads, h, k->subs, c, k->rows, r, k->own, o).refusal == (i == 5 ? 0 : refusal));
        CHECK(station_start(k->heads, h, k->subs, c, k->rows, r, s.own, o, k->events, e) == refusal);
    }
}

/* many calls: the code with the number, and what ends a list */
static void lists(void)
{
    static uint64_t list[STATION_EVENTS + 1][DESTINATION_EVENT_WORDS];
    struct destination_outcome o[3] = {{1, 1, 1}, {1, 1, 1}, {1, 1, 1}};
    struct destination_consumer c = {.id = {9, 1, 1}, .prefetch = 1, .selector = DESTINATION_NO_SELECTOR};
    struct destination_request r[3] = {station_request(6, station_request_open(DESTINATION_QUEUE, 0, 100, 0, 0, 0, 8)), station_request(6, destination_request_join(c, 1)),
                                       station_request(6, destination_request_enqueue((struct destination_entry){.size = 1}, 2))};
    CHECK(r[1].code == STATION_CODE(DESTINATION_JOIN, 6) && r[1].code == 1538 && station_request(UINT64_MAX / 256, r[0]).code == UINT64_MAX - 255 + r[0].code);
    CHECK(station_start_of(&s) == 0);
    struct destination_done d = station_calls_of(&s, list, STATION_EVENTS, r, 3, o, 2);
    CHECK(d.calls == 2 && d.events == 0 && o[0].refusal == 0 && o[1].refusal == 0 && o[2].refusal == 1 && station_is_open(&s, 6));
    d = station_calls_of(&s, list, STATION_EVENTS - 1, r + 2, 1, o + 2, 1);
    CHECK(d.calls == 0 && d.events == 0 && o[2].refusal == 1);
    d = station_calls_of(&s, list, STATION_EVENTS, r + 2, 1, o + 2, 1);
    CHECK(d.calls == 1 && d.events == 1 && o[2].refusal == 0 && o[2].answer == 0 && o[2].events == 1);
    CHECK(STATION_EVENT_DESTINATION(list[0]) == 6 && STATION_EVENT_KIND(list[0]) == DESTINATION_MESSAGE && station_event_sequence(list[0]) == 1);
    r[0] = station_request(6, (struct destination_request){16, {0}}); /* a start has no code here */
    d = station_calls_of(&s, list, STATION_EVENTS, r, 1, o, 3);
    CHECK(d.calls == 1 && o[0].refusal == DESTINATION_ARGUMENTS && station_is_open(&s, 6));
}

/* the words of an open, and where its parts stand */
static void places(void)
{
    struct destination_request r = station_request_open(DESTINATION_TOPIC, 2, 30, 4, 5, 6, 7);
    const uint64_t words[8] = {1, 2, 30, 4, 5, 6, 7, 0};
    CHECK(r.code == DESTINATION_OPEN && memcmp(r.words, words, sizeof words) == 0);
    CHECK(station_start_of(&s) == 0 && s.own[STATION_OWN_NEXT] == 1 && s.own[STATION_OWN_LOST] == 0);
    CHECK(station_do(&s, 3, r).refusal == 0 && s.own[STATION_OWN_OPEN(3)] == 1 && s.own[STATION_OWN_NAME(3)] == 7);
    CHECK(station_is_open(&s, 3) && !station_is_open(&s, 2));
    struct station_part p = station_part_of(&s, 3);
    CHECK(p.head[0] == DESTINATION_TOPIC && p.head[1] == 2 && p.head[DESTINATION_HEAD_CALL_LIMIT] == 30);
    CHECK(p.head[DESTINATION_HEAD_ALLOWANCE] == 5 && p.head[DESTINATION_HEAD_SHARE] == 6);
    CHECK(destination_is_queue(STATION_PART(p)).refusal == 0 && destination_is_queue(STATION_PART(p)).answer == 0);
    CHECK(station_do(&s, 8, r).refusal == STATION_NOT_OPEN && station_enqueue(&s, 2, (struct destination_entry){0}, 0).refusal == STATION_NOT_OPEN);
    r.words[6] = 9;
    CHECK(station_do(&s, 3, r).refusal == DESTINATION_ARGUMENTS);
}

/* each kind of event, of destination 5: the letter's number is 2 */
static void events(void)
{
    const struct destination_id id = {9, -1, -2};
    struct destination_consumer c = {.id = id, .prefetch = 5, .selector = DESTINATION_NO_SELECTOR}, looks = {.id = {8, 1, 1}, .prefetch = 1, .selector = 64, .browser = true};
    struct destination_acknowledgement a = {.type = DESTINATION_POISON, .has_last = true, .last = 1, .cause = true};
    CHECK(station_start_of(&s) == 0 && station_open(&s, 5, DESTINATION_QUEUE, 0, 100, 0, 0, 0, 5).refusal == 0);
    CHECK(station_enqueue(&s, 5, (struct destination_entry){.persistent = true, .redelivery = -3}, 1).refusal == 0 && station_numbers_of(&s).next == 2);
    CHECK(station_join(&s, 5, c, 2).events == 1);
    CHECK(STATION_EVENT_KIND(s.events[0]) == DESTINATION_MESSAGE && STATION_EVENT_DESTINATION(s.events[0]) == 5);
    CHECK(station_event_sequence(s.events[0]) == 1 && station_event_redelivery(s.events[0]) == -3 && !station_event_cause(s.events[0]));
    CHECK(station_event_consumer(s.events[0]).connection == 9 && station_event_consumer(s.events[0]).session == -1 && station_event_consumer(s.events[0]).value == -2);
    CHECK(station_ack(&s, 5, id, a, 3).events == 2); /* the letter comes back to where it was rejected */
    CHECK(STATION_EVENT_KIND(s.events[0]) == DESTINATION_DEAD_LETTER && STATION_EVENT_DESTINATION(s.events[0]) == 5);
    CHECK(station_event_sequence(s.events[0]) == 1 && station_event_redelivery(s.events[0]) == -3 && station_event_cause(s.events[0]));
    CHECK(STATION_EVENT_KIND(s.events[1]) == DESTINATION_MESSAGE && station_event_sequence(s.events[1]) == 2 && station_event_redelivery(s.events[1]) == -3);
    CHECK(station_join(&s, 5, looks, 4).events == 1 && STATION_EVENT_KIND(s.events[0]) == DESTINATION_NULL && STATION_EVENT_DESTINATION(s.events[0]) == 5);
    CHECK(station_numbers_of(&s).next == 3 && station_numbers_of(&s).lost == 0);
}

/* rows of told letters, with guards before and after those that are lent */
static struct station_told list[STATION_LETTERS + 2];

static struct station_told_outcome tell(size_t length, uint64_t number, struct destination_request r)
{
    for (size_t i = 0; i < STATION_LETTERS + 2; i++)
        list[i] = (struct station_told){77, 78, 79};
    return station_do_told(&s, list + 1, length, number, r);
}

static bool row(size_t i, uint64_t had, uint64_t got, uint64_t destination)
{
    return list[i].had == had && list[i].got == got && list[i].destination == destination;
}

static bool gave(struct station_told_outcome o, uint64_t refusal, uint64_t answer, size_t events, size_t letters)
{
    return o.refusal == refusal && o.answer == answer && o.events == events && o.letters == letters;
}

/* what became of letters: 3 stores two, as its share is 2; 5, which it names, has one call left and stores one; the others are lost */
static void told(void)
{
    const struct destination_id id = {9, -1, -2};
    struct destination_consumer c = {.id = id, .prefetch = 600, .selector = DESTINATION_NO_SELECTOR};
    struct destination_acknowledgement a = {.type = DESTINATION_POISON, .has_last = true, .last = 4};
    struct destination_request join = destination_request_join(c, 2), rejects = destination_request_ack(id, a, 3);
    CHECK(station_start_of(&s) == 0 && station_open(&s, 2, DESTINATION_QUEUE, 0, 10000, 0, 0, 0, 3).refusal == 0);
    CHECK(station_open(&s, 3, DESTINATION_QUEUE, 0, 10000, 0, 0, 2, 5).refusal == 0 && station_open(&s, 5, DESTINATION_QUEUE, 0, 1, 0, 0, 0, STATION_NONE).refusal == 0);
    size_t untold = 0;
    while (untold < DESTINATION_ROWS && gave(tell(1, 2, destination_request_enqueue((struct destination_entry){.persistent = true}, 1)), 0, 0, 0, 0) && row(1, 77, 78, 79))
        untold++;
    CHECK(untold == DESTINATION_ROWS);
    CHECK(gave(tell(STATION_LETTERS, 2, join), 0, 0, 512, 0) && row(1, 77, 78, 79));
    CHECK(gave(tell(STATION_LETTERS, 2, join), DESTINATION_CONSUMER_HERE, 0, 0, 0) && row(1, 77, 78, 79));
    CHECK(gave(tell(STATION_LETTERS, 4, rejects), STATION_NOT_OPEN, 0, 0, 0) && row(1, 77, 78, 79));
    memcpy(&other, &s, sizeof s);
    CHECK(gave(tell(STATION_LETTERS, 2, rejects), 0, 0, 4, 4) && row(0, 77, 78, 79) && row(1, 1, 513, 3) && row(2, 2, 514, 3) && row(3, 3, 515, 5));
    CHECK(row(4, 4, 516, STATION_LOST) && row(5, 77, 78, 79) && station_numbers_of(&s).next == 517 && station_numbers_of(&s).lost == 1);
    memcpy(&s, &other, sizeof s);
    CHECK(gave(tell(2, 2, rejects), 0, 0, 4, 4) && row(0, 77, 78, 79) && row(1, 1, 513, 3) && row(2, 2, 514, 3) && row(3, 77, 78, 79));
    memcpy(&s, &other, sizeof s);
    CHECK(gave(tell(0, 2, rejects), 0, 0, 4, 4) && row(0, 77, 78, 79) && row(1, 77, 78, 79) && station_numbers_of(&s).next == 517);
    a.last = 512;
    rejects = destination_request_ack(id, a, 3);
    memcpy(&s, &other, sizeof s);
    s.own[STATION_OWN_NEXT] = STATION_NUMBERS_END - 511; /* one has no number */
    CHECK(gave(tell(STATION_LETTERS, 2, rejects), 0, 0, 512, 512) && row(0, 77, 78, 79) && row(1, 1, STATION_NUMBERS_END - 511, 3));
    CHECK(row(511, 511, STATION_NUMBERS_END - 1, STATION_LOST) && row(512, 512, 0, STATION_LOST) && row(513, 77, 78, 79) && station_numbers_of(&s).lost == 509);
}

/* the two calls without a code count each its own */
static void uncoded(void)
{
    struct station_part p = station_part_of(&s, 5);
    CHECK(station_add_discarded_of(&s, 5).refusal == 0 && destination_counters(STATION_PART(p)).discarded == 1 && destination_counters(STATION_PART(p)).expired == 0);
    CHECK(station_expired_before_storing_of(&s, 5).refusal == 0 && destination_counters(STATION_PART(p)).expired == 1);
    CHECK(station_add_discarded_of(&s, 4).refusal == STATION_NOT_OPEN);
}

/* a damaged station: refused, and as it was */
static void damaged(void)
{
    const struct destination_request rejects = destination_request_ack((struct destination_id){9, -1, -2}, (struct destination_acknowledgement){.type = DESTINATION_POISON}, 3);
    s.own[STATION_OWN_NEXT] = 0;
    memcpy(&other, &s, sizeof s);
    CHECK(station_numbers_of(&s).refusal == DESTINATION_NOT_SOUND && station_numbers_of(&s).next == 0 && station_numbers_of(&s).lost == 0);
    CHECK(station_do(&s, 5, destination_request_clear()).refusal == DESTINATION_NOT_SOUND && memcmp(&other, &s, sizeof s) == 0);
    CHECK(gave(tell(1, 5, rejects), DESTINATION_NOT_SOUND, 0, 0, 0) && row(1, 77, 78, 79) && memcmp(&other, &s, sizeof s) == 0);
}

int main(void)
{
    limits();
    shorter();
    lists();
    places();
    events();
    uncoded();
    told();
    damaged();
    printf("declarations: %d checks hold\n", checks);
    return 0;
}
