/* Holds include/destination.h beside the library: sizes, limits, the order of arguments, the words of each call, and that nothing outside
 * the lent buffers is written. Nothing else would notice that the header and the library have come apart. */
#include <stdio.h>
#include <stdlib.h>
#include <string.h>

#include "destination.h"

/* ---- sizes and places, seen by the compiler */

#define CONCAT(a, b) a##b
#define NAMED(line) CONCAT(assert_, line)
#define ALWAYS(condition) typedef char NAMED(__LINE__)[(condition) ? 1 : -1] __attribute__((unused))

ALWAYS(sizeof(uint64_t) == 8 && sizeof(size_t) == 8 && sizeof(void *) == 8 && sizeof(bool) == 1);
ALWAYS(sizeof(struct destination_request) == 72);
ALWAYS(offsetof(struct destination_request, code) == 0);
ALWAYS(offsetof(struct destination_request, words) == 8);
ALWAYS(sizeof(struct destination_outcome) == 24);
ALWAYS(offsetof(struct destination_outcome, refusal) == 0);
ALWAYS(offsetof(struct destination_outcome, answer) == 8);
ALWAYS(offsetof(struct destination_outcome, events) == 16);
ALWAYS(sizeof(struct destination_done) == 16);
ALWAYS(offsetof(struct destination_done, calls) == 0);
ALWAYS(offsetof(struct destination_done, events) == 8);
ALWAYS(sizeof(struct destination_asked) == 16);
ALWAYS(offsetof(struct destination_asked, refusal) == 0);
ALWAYS(offsetof(struct destination_asked, answer) == 8);
ALWAYS(sizeof(struct destination_counted) == 48);
ALWAYS(offsetof(struct destination_counted, refusal) == 0);
ALWAYS(offsetof(struct destination_counted, enqueued) == 8);
ALWAYS(offsetof(struct destination_counted, dequeued) == 16);
ALWAYS(offsetof(struct destination_counted, expired) == 24);
ALWAYS(offsetof(struct destination_counted, discarded) == 32);
ALWAYS(offsetof(struct destination_counted, dispatched) == 40);
ALWAYS(sizeof(struct destination_paged) == 24);
ALWAYS(offsetof(struct destination_paged, refusal) == 0);
ALWAYS(offsetof(struct destination_paged, total) == 8);
ALWAYS(offsetof(struct destination_paged, count) == 16);
ALWAYS(sizeof(struct destination_page_line) == 24);
ALWAYS(offsetof(struct destination_page_line, sequence) == 0);
ALWAYS(offsetof(struct destination_page_line, expiration) == 8);
ALWAYS(offsetof(struct destination_page_line, redelivery) == 16);
ALWAYS(sizeof(((struct destination_page_line *)0)->redelivery) == 4);
ALWAYS(sizeof(struct destination_span) == 32);
ALWAYS(offsetof(struct destination_span, earlier) == 0);
ALWAYS(offsetof(struct destination_span, later) == 8);
ALWAYS(offsetof(struct destination_span, from) == 16);
ALWAYS(offsetof(struct destination_span, to) == 24);
ALWAYS(sizeof(struct destination_outlooked) == 48);
ALWAYS(offsetof(struct destination_outlooked, refusal) == 0);
ALWAYS(offsetof(struct destination_outlooked, sure) == 8);
ALWAYS(offsetof(struct destination_outlooked, perhaps) == 16);
ALWAYS(offsetof(struct destination_outlooked, alive) == 24);
ALWAYS(offsetof(struct destination_outlooked, next) == 32);
ALWAYS(offsetof(struct destination_outlooked, count) == 40);
ALWAYS(sizeof(struct destination_block) == 24);
ALWAYS(offsetof(struct destination_block, sequence) == 0);
ALWAYS(offsetof(struct destination_block, place) == 8);
ALWAYS(offsetof(struct destination_block, persistent) == 16);
ALWAYS(sizeof(struct destination_noted) == 40);
ALWAYS(offsetof(struct destination_noted, refusal) == 0);
ALWAYS(offsetof(struct destination_noted, answer) == 8);
ALWAYS(offsetof(struct destination_noted, events) == 16);
ALWAYS(offsetof(struct destination_noted, held) == 24);
ALWAYS(offsetof(struct destination_noted, left) == 32);
ALWAYS(sizeof(((struct destination *)0)->subs[0]) == 128);
ALWAYS(sizeof(((struct destination *)0)->rows[0]) == 80);
ALWAYS(sizeof(((struct destination *)0)->events[0]) == 48);
ALWAYS(offsetof(struct destination, head) == 0);
ALWAYS(offsetof(struct destination, subs) == 66776);
ALWAYS(offsetof(struct destination, rows) == 70872);
ALWAYS(offsetof(struct destination, events) == 111832);
ALWAYS(sizeof(struct destination) == 137992);
ALWAYS(DESTINATION_CLOCK_MOST == UINT64_C(4611686018427387904));
ALWAYS(DESTINATION_CALL_LIMIT_MOST == UINT64_C(1099511627776));
ALWAYS(DESTINATION_SEQUENCE_MOST == UINT64_C(9223372036854775807));
ALWAYS(DESTINATION_SIZE_MOST == UINT64_C(4294967295));

/* ---- checks that are counted */

static int checks;

static void check(bool holds, const char *what, int line)
{
    checks++;
    if (!holds) {
        printf("line %d: %s\n", line, what);
        exit(1);
    }
}

#define CHECK(condition) check((condition), #condition, __LINE__)

/* ---- buffers with guard words around each */

#define GUARD 64
#define GUARD_WORD UINT64_C(0xA5A5A5A55A5A5A5A)

static struct {
    uint64_t g0[GUARD];
    uint64_t head[DESTINATION_HEAD_WORDS];
    uint64_t g1[GUARD];
    uint64_t subs[DESTINATION_CONSUMERS][DESTINATION_SUB_WORDS];
    uint64_t g2[GUARD];
    uint64_t rows[DESTINATION_ROWS][DESTINATION_ROW_WORDS];
    uint64_t g3[GUARD];
    uint64_t events[DESTINATION_EVENTS][DESTINATION_EVENT_WORDS];
    uint64_t g4[GUARD];
} b;

static bool guarded(const uint64_t *g)
{
    for (size_t i = 0; i < GUARD; i++)
        if (g[i] != GUARD_WORD)
            return false;
    return true;
}

static bool all_guarded(void)
{
    return guarded(b.g0) && guarded(b.g1) && guarded(b.g2) && guarded(b.g3) && guarded(b.g4);
}

static void fill(void)
{
    uint64_t *w = (uint64_t *)&b;
    for (size_t i = 0; i < sizeof b / 8; i++)
        w[i] = GUARD_WORD;
}

static struct destination_outcome lend(size_t head, size_t subs, size_t rows, size_t events, struct destination_request r)
{
    struct destination_outcome o = destination_call(b.head, head, b.subs, subs, b.rows, rows, b.events, events, r);
    CHECK(all_guarded());
    return o;
}

static struct destination_outcome call(struct destination_request r)
{
    return lend(DESTINATION_HEAD_WORDS, DESTINATION_CONSUMERS, DESTINATION_ROWS, DESTINATION_EVENTS, r);
}

static bool is(struct destination_outcome o, uint64_t refusal, uint64_t answer, size_t events)
{
    return o.refusal == refusal && o.answer == answer && o.events == events;
}

static bool same(const uint64_t *a, const uint64_t *w, size_t n)
{
    return memcmp(a, w, n * 8) == 0;
}

#define WORDS(...) ((const uint64_t[]){__VA_ARGS__})

static void limits(void)
{
    CHECK(destination_head_words() == DESTINATION_HEAD_WORDS);
    CHECK(destination_consumers() == DESTINATION_CONSUMERS);
    CHECK(destination_rows() == DESTINATION_ROWS);
    CHECK(destination_events() == DESTINATION_EVENTS);
    CHECK(destination_page_lines() == DESTINATION_PAGE_LINES);
    CHECK(destination_outlook_lines() == DESTINATION_OUTLOOK_LINES);
    CHECK(destination_held_blocks() == DESTINATION_HELD_BLOCKS && destination_left_blocks() == DESTINATION_LEFT_BLOCKS);

    /* each length alone, one short: so no two of them are exchanged */
    struct destination_request open = {0, {0, 0, 100, 0}};
    fill();
    CHECK(is(lend(8346, 32, 512, 545, open), 1, 0, 0));
    CHECK(is(lend(8347, 31, 512, 545, open), 1, 0, 0));
    CHECK(is(lend(8347, 32, 511, 545, open), 1, 0, 0));
    CHECK(is(lend(8347, 32, 512, 544, open), 1, 0, 0));
    CHECK(b.head[0] == GUARD_WORD);
    CHECK(is(lend(8347, 32, 512, 545, open), 0, 0, 0));

    /* the ends of the ranges */
    struct destination_request most = {0, {1, DESTINATION_TOPIC_LIMIT_MOST, DESTINATION_CALL_LIMIT_MOST, DESTINATION_CLOCK_MOST, DESTINATION_ALLOWANCE_MOST, DESTINATION_SHARE_MOST}};
    CHECK(is(call(most), 0, 0, 0));
    CHECK(b.head[DESTINATION_HEAD_ALLOWANCE] == DESTINATION_ALLOWANCE_MOST && b.head[DESTINATION_HEAD_SHARE] == DESTINATION_SHARE_MOST);
    for (size_t i = 0; i < 6; i++) {
        struct destination_request more = most;
        more.words[i]++;
        CHECK(is(call(more), 3, 0, 0));
    }
    struct destination_request entry = {1, {DESTINATION_SEQUENCE_MOST, 0, 1, 0, 0, 0, 0, 0}};
    CHECK(is(call(entry), 0, 0, 0));
    entry.words[0]++;
    CHECK(is(call(entry), 3, 0, 0));
    struct destination_request sized = {1, {5, 0, 1, 0, 0, 0, 0, DESTINATION_SIZE_MOST}};
    CHECK(is(call(sized), 0, 0, 0));
    sized.words[7]++;
    CHECK(is(call(sized), 3, 0, 0));
    CHECK(is(call((struct destination_request){9, {0, DESTINATION_SWEEP_MOST}}), 0, 0, 0));
    CHECK(is(call((struct destination_request){9, {0, DESTINATION_SWEEP_MOST + 1}}), 3, 0, 0));
    CHECK(is(call((struct destination_request){16, {0}}), 3, 0, 0));
}

#define SUBS ((const uint64_t (*)[DESTINATION_SUB_WORDS])b.subs)
#define ROWS ((const uint64_t (*)[DESTINATION_ROW_WORDS])b.rows)

static bool counts(uint64_t enqueued, uint64_t dequeued, uint64_t expired, uint64_t discarded, uint64_t dispatched)
{
    struct destination_counted c = destination_counters(b.head, DESTINATION_HEAD_WORDS, SUBS, DESTINATION_CONSUMERS, ROWS, DESTINATION_ROWS);
    return c.refusal == 0 && c.enqueued == enqueued && c.dequeued == dequeued && c.expired == expired &&
           c.discarded == discarded && c.dispatched == dispatched;
}

/* the state's arguments, to write and to read */
#define WRITTEN b.head, DESTINATION_HEAD_WORDS, b.subs, DESTINATION_CONSUMERS, b.rows, DESTINATION_ROWS
#define STATE b.head, DESTINATION_HEAD_WORDS, SUBS, DESTINATION_CONSUMERS, ROWS, DESTINATION_ROWS

/* each word of a call comes to its own place, in its own buffer */
static void places(void)
{
    fill();
    CHECK(is(call((struct destination_request){0, {1, 2, 30, 4}}), 0, 0, 0));
    CHECK(same(b.head, WORDS(1, 2, 30, 0, 0, 1, 4, 0, 0, 0, 0, 0, 0, 0, 0, 0, 0), 17));
    CHECK(b.subs[0][0] == GUARD_WORD && b.rows[0][0] == GUARD_WORD && b.events[0][0] == GUARD_WORD);

    CHECK(is(call((struct destination_request){0, {0, 0, 30, 4}}), 0, 0, 0));
    CHECK(is(call((struct destination_request){1, {11, 12, 1, 13, 14, 15, 9, 16}}), 0, 0, 0));
    CHECK(same(b.rows[0], WORDS(11, 12, 1, 13, 14, 15, 0, 0, 0, 16), 10));
    CHECK(b.rows[1][0] == GUARD_WORD && b.subs[0][0] == GUARD_WORD && b.events[0][0] == GUARD_WORD);
    CHECK(b.head[DESTINATION_HEAD_CALLS_USED] == 1 && b.head[DESTINATION_HEAD_CALL_LIMIT] == 30);

    CHECK(is(call((struct destination_request){2, {21, 22, 23, 2, 64, 1, 10}}), 0, 0, 1));
    CHECK(same(b.subs[0], WORDS(21, 22, 23, 2, 64, 1, 0, 0), 8));
    CHECK(b.subs[1][0] == GUARD_WORD);
    CHECK(same(b.events[0], WORDS(2, 21, 22, 23, 11, 15), 6));
    CHECK(b.events[1][0] == GUARD_WORD);

    /* refusal, answer and events apart: two entries go over to the consumer that stays */
    CHECK(is(call((struct destination_request){1, {16, 0, 1, 0, 0, 0, 10}}), 0, 0, 1));
    CHECK(is(call((struct destination_request){2, {24, 0, 0, 5, 64, 0, 10}}), 0, 0, 0));
    CHECK(is(call((struct destination_request){2, {24, 0, 0, 5, 64, 0, 10}}), 6, 0, 0));
    CHECK(is(call((struct destination_request){3, {21, 22, 23, 11, 10}}), 0, 1, 2));
    CHECK(same(b.events[0], WORDS(2, 24, 0, 0, 11, 16, 2, 24, 0, 0, 16, 0), 12));

}

/* a share of one row: 14 for its connection alone; 0 stands for all rows */
static void shares(void)
{
    CHECK(is(call((struct destination_request){0, {0, 0, 30, 4, 0, 1}}), 0, 0, 0) && b.head[DESTINATION_HEAD_SHARE] == 1);
    CHECK(is(call((struct destination_request){1, {11, 0, 1, 13, 0, 0, 9}}), 0, 0, 0));
    CHECK(is(call((struct destination_request){1, {12, 0, 1, 13, 0, 0, 9}}), DESTINATION_SHARE_USED_UP, 0, 0));
    CHECK(is(call((struct destination_request){1, {12, 0, 1, 0, 0, 0, 9}}), 0, 0, 0));
    CHECK(is(call((struct destination_request){0, {0, 0, 30, 4}}), 0, 0, 0) && b.head[DESTINATION_HEAD_SHARE] == DESTINATION_SHARE_MOST);
}

/* each counter apart, after the calls of `places`: dequeued, expired, discarded, then the two calls without a code */
static void counters(void)
{
    CHECK(is(call((struct destination_request){4, {24, 0, 0, 4 + 1024, 0, 16, 10}}), 0, 0, 0));
    CHECK(is(call((struct destination_request){4, {24, 0, 0, 6 + 1024, 0, 11, 10}}), 0, 0, 0));
    CHECK(is(call((struct destination_request){1, {17, 0, 0, 0, 0, 0, 10}}), 0, 0, 1));
    CHECK(is(call((struct destination_request){1, {18, 0, 0, 0, 0, 0, 10}}), 0, 0, 1));
    CHECK(is(call((struct destination_request){1, {19, 0, 0, 0, 0, 0, 10}}), 0, 0, 1));
    CHECK(is(call((struct destination_request){4, {24, 0, 0, 1 + 512 + 1024, 17, 18, 10}}), 0, 0, 0));
    CHECK(is(call((struct destination_request){4, {24, 0, 0, 2 + 1024, 0, 19, 10}}), 0, 0, 0));
    CHECK(counts(5, 2, 1, 2, 7));

    CHECK(is(destination_add_discarded(WRITTEN, b.events, DESTINATION_EVENTS), 0, 0, 0));
    CHECK(counts(5, 2, 1, 3, 7));
    CHECK(is(destination_expired_before_storing(WRITTEN, b.events, DESTINATION_EVENTS), 0, 0, 0));
    CHECK(counts(5, 2, 2, 3, 7));
    CHECK(is(destination_add_discarded(WRITTEN, b.events, DESTINATION_EVENTS - 1), 1, 0, 0));
    CHECK(is(destination_expired_before_storing(WRITTEN, b.events, DESTINATION_EVENTS - 1), 1, 0, 0));
    CHECK(b.head[DESTINATION_HEAD_CALLS_USED] == 14 && all_guarded());
}

/* ---- queries: each answer another number, and each length alone one short */

static struct {
    uint64_t g0[GUARD];
    struct destination_page_line lines[DESTINATION_PAGE_LINES];
    uint64_t g1[GUARD];
} page;

static bool asked(struct destination_asked a, uint64_t refusal, uint64_t answer)
{
    return a.refusal == refusal && a.answer == answer;
}

#define SHORT(name, ...) \
    do { \
        CHECK(name(b.head, 8346, SUBS, 32, ROWS, 512 __VA_ARGS__).refusal == 1); \
        CHECK(name(b.head, 8347, SUBS, 31, ROWS, 512 __VA_ARGS__).refusal == 1); \
        CHECK(name(b.head, 8347, SUBS, 32, ROWS, 511 __VA_ARGS__).refusal == 1); \
        CHECK(name(b.head, 8347, SUBS, 32, ROWS, 512 __VA_ARGS__).refusal == 0); \
    } while (0)
#define AND ,

static bool line(size_t i, uint64_t sequence, int64_t expiration, int32_t redelivery)
{
    const struct destination_page_line *l = &page.lines[i];
    return l->sequence == sequence && l->expiration == expiration && l->redelivery == redelivery;
}

static void lengths(void)
{
    SHORT(destination_is_queue);
    SHORT(destination_has_consumers);
    SHORT(destination_has_expiring);
    SHORT(destination_message_count);
    SHORT(destination_bytes_held);
    SHORT(destination_idle_for, AND 0, 0);
    SHORT(destination_seq_at, AND 0);
    SHORT(destination_counters);
    SHORT(destination_page, AND page.lines, 50, 0, 1);
    CHECK(destination_page(STATE, page.lines, 49, 0, 1).refusal == 1);
}

static struct {
    uint64_t g0[GUARD];
    struct destination_page_line lines[DESTINATION_OUTLOOK_LINES];
    uint64_t g1[GUARD];
} view;

static bool looked(struct destination_outlooked o, uint64_t sure, uint64_t perhaps, uint64_t alive, uint64_t next, size_t count)
{
    return o.refusal == 0 && o.sure == sure && o.perhaps == perhaps && o.alive == alive && o.next == next && o.count == count;
}

/* each number of an outlook apart, and its list */
static void outlooks(void)
{
    static const int64_t expirations[7] = {10, 20, 21, 30, 31, 32, 0};
    struct destination_span span = {10, 21, 20, 31};
    CHECK(is(call((struct destination_request){0, {0, 0, 30, 4}}), 0, 0, 0));
    for (uint64_t i = 0; i < 7; i++)
        CHECK(is(call((struct destination_request){1, {7 - i, (uint64_t)expirations[i], 1, 0, 0, 8, 4}}), 0, 0, 0));
    for (size_t i = 0; i < sizeof view / 8; i++)
        ((uint64_t *)&view)[i] = GUARD_WORD;
    CHECK(looked(destination_outlook(STATE, view.lines, 512, span), 1, 2, 4, 4, 4));
    CHECK(view.lines[0].sequence == 6 && view.lines[0].expiration == 20 && view.lines[0].redelivery == 8);
    CHECK(view.lines[1].sequence == 5 && view.lines[2].sequence == 4 && view.lines[3].sequence == 3 && view.lines[4].sequence == GUARD_WORD);
    SHORT(destination_outlook, AND view.lines, 512, span);
    CHECK(destination_outlook(STATE, view.lines, 511, span).refusal == DESTINATION_SHORT);
    span.later = DESTINATION_CLOCK_MOST + 1;
    CHECK(destination_outlook(STATE, view.lines, 512, span).refusal == DESTINATION_ARGUMENTS);
    span.later = 9;
    CHECK(destination_outlook(STATE, view.lines, 512, span).refusal == DESTINATION_READINGS_TURNED);
    CHECK(guarded(view.g0) && guarded(view.g1) && all_guarded());
}

static void pages(void)
{
    for (size_t i = 0; i < sizeof page / 8; i++)
        ((uint64_t *)&page)[i] = GUARD_WORD;
    struct destination_paged p = destination_page(STATE, page.lines, 50, 1, 2);
    CHECK(p.refusal == 0 && p.total == 4 && p.count == 2);
    CHECK(line(0, 32, -5, 6) && line(1, 33, 0, 0) && page.lines[2].sequence == GUARD_WORD);
    p = destination_page(STATE, page.lines, 50, 3, UINT64_MAX);
    CHECK(p.refusal == 0 && p.total == 4 && p.count == 1 && line(0, 34, 9000, -1) && line(1, 33, 0, 0));
    CHECK(guarded(page.g0) && guarded(page.g1));
}

static void queries(void)
{
    fill();
    CHECK(is(call((struct destination_request){0, {1, 0, 30, 4}}), 0, 0, 0));
    CHECK(asked(destination_is_queue(STATE), 0, 0));
    CHECK(is(call((struct destination_request){0, {0, 0, 30, 4000}}), 0, 0, 0));
    CHECK(asked(destination_is_queue(STATE), 0, 1));
    /* the clock, then the seconds */
    CHECK(asked(destination_idle_for(STATE, 7000, 3), 0, 1));
    CHECK(asked(destination_idle_for(STATE, 7000, 4), 0, 0));
    CHECK(asked(destination_idle_for(STATE, DESTINATION_CLOCK_MOST + 1, 3), 3, 0));
    CHECK(asked(destination_idle_for(STATE, 7000, DESTINATION_CLOCK_MOST + 1), 0, 0));
    CHECK(is(call((struct destination_request){1, {33, 0, 1, 0, 0, 0, 5000, 700}}), 0, 0, 0));
    CHECK(is(call((struct destination_request){1, {31, 0, 1, 0, 0, 0, 5000, DESTINATION_SIZE_MOST}}), 0, 0, 0));
    CHECK(is(call((struct destination_request){1, {32, (uint64_t)-5, 1, 0, 0, 6, 5000}}), 0, 0, 0));
    CHECK(asked(destination_has_expiring(STATE), 0, 0));
    CHECK(is(call((struct destination_request){1, {34, 9000, 1, 0, 0, UINT64_MAX, 5000}}), 0, 0, 0));
    CHECK(asked(destination_has_expiring(STATE), 0, 1));
    CHECK(asked(destination_has_consumers(STATE), 0, 0));
    CHECK(asked(destination_message_count(STATE), 0, 4));
    CHECK(asked(destination_bytes_held(STATE), 0, UINT64_C(4294967995)));
    CHECK(asked(destination_seq_at(STATE, 3), 0, 34));
    CHECK(asked(destination_seq_at(STATE, 4), 0, 0));
    lengths();
    pages();
    CHECK(is(call((struct destination_request){2, {7, 7, 7, 0, 64, 0, 5000}}), 0, 0, 0));
    CHECK(asked(destination_has_consumers(STATE), 0, 1));
    CHECK(all_guarded());
    b.head[4] = 1; /* turn of a consumer that is not there */
    CHECK(asked(destination_is_queue(STATE), 2, 0) && asked(destination_seq_at(STATE, 0), 2, 0) && asked(destination_bytes_held(STATE), 2, 0));
    CHECK(destination_counters(STATE).refusal == 2 && destination_page(STATE, page.lines, 50, 0, 1).refusal == 2);
}

/* ---- the inline functions: document 01's words, and the same outcome and state as the library's own function */

static struct destination one, two;

static void inlined(struct destination_request built, struct destination_outcome done, uint64_t code, const uint64_t *words)
{
    struct destination_request raw = {code, {0}};
    memcpy(raw.words, words, sizeof raw.words);
    CHECK(memcmp(&built, &raw, sizeof raw) == 0);
    struct destination_outcome o = destination_call(two.head, DESTINATION_HEAD_WORDS, two.subs, DESTINATION_CONSUMERS, two.rows,
                                                    DESTINATION_ROWS, two.events, DESTINATION_EVENTS, raw);
    CHECK(o.refusal == 0);
    CHECK(is(done, o.refusal, o.answer, o.events));
    CHECK(memcmp(&one, &two, sizeof one) == 0);
}

#define INLINED(name, arguments, code, ...) \
    inlined(destination_request_##name arguments, destination_##name WITH arguments, code, (const uint64_t[8]){__VA_ARGS__})
#define WITH(...) (&one, __VA_ARGS__)

static void inline_functions(void)
{
    const uint64_t m1 = UINT64_MAX, m2 = UINT64_MAX - 1, m3 = UINT64_MAX - 2;
    const struct destination_id id = {7, -2, -3}, other = {8, 1, 2};
    const struct destination_entry entry = {41, -1, true, 42, 43, -2, UINT32_MAX}, plain = {44, 45, false, 46, 47, 48, 49};
    const struct destination_consumer consumer = {id, 0, 64, false, false}, local = {other, -1, 5, true, false};
    const struct destination_consumer browser = {{9, 9, 9}, 6, 64, false, true}, both = {{9, 9, 8}, 6, 64, true, true};
    const struct destination_acknowledgement last = {.type = 2, .has_last = true, .first = 5, .last = 41};
    const struct destination_acknowledgement all = {255, true, true, true, true, -1, -2};
    const struct destination_acknowledgement none = {.type = 0, .first = 5, .last = 6};

    INLINED(open, (DESTINATION_TOPIC, 2, 3, 4, 5, 6), DESTINATION_OPEN, 1, 2, 3, 4, 5, 6);
    INLINED(open, (DESTINATION_QUEUE, 0, 100, 4, 0, 0), 0, 0, 0, 100, 4);
    INLINED(enqueue, (entry, 40), 1, 41, m1, 1, 42, 43, m2, 40, 4294967295);
    INLINED(enqueue, (plain, 40), 1, 44, 45, 0, 46, 47, 48, 40, 49);
    INLINED(join, (browser, 40), 2, 9, 9, 9, 6, 64, 2, 40);
    INLINED(join, (both, 40), 2, 9, 9, 8, 6, 64, 3, 40);
    INLINED(join, (consumer, 40), 2, 7, m2, m3, 0, 64, 0, 40);
    INLINED(join, (local, 40), 2, 8, 1, 2, m1, 5, 1, 40);
    INLINED(pull, (id, -1, 40), 5, 7, m2, m3, m1, 40);
    INLINED(pull, (id, 5, 41), 5, 7, m2, m3, 5, 41);
    INLINED(timeout, (id, 1), 6, 7, m2, m3, 1);
    INLINED(ack, (id, last, 42), 4, 7, m2, m3, 2 + 1024, 0, 41, 42);
    INLINED(ack, (id, all, 42), 4, 7, m2, m3, 255 + 256 + 512 + 1024 + 2048, m1, m2, 42);
    INLINED(ack, (id, none, 42), 4, 7, m2, m3, 0, 0, 0, 42);
    INLINED(prefetch, (id, 3, 43), 7, 7, m2, m3, 3, 43);
    INLINED(prefetch, (id, -1, 43), 7, 7, m2, m3, m1, 43);
    INLINED(leave, (id, DESTINATION_LAST_UNKNOWN, 44), 3, 7, m2, m3, m1, 44);
    INLINED(unmark, (id), 8, 7, m2, m3);
    INLINED(release, (id, 45), 15, 7, m2, m3, 45);
    INLINED(sweep, (46, 512), 9, 46, 512);
    inlined(destination_request_clear(), destination_clear(&one), 10, (const uint64_t[8]){0});
    INLINED(add_producer, (id), 11, 7, m2, m3);
    INLINED(duplicate, (id, -1), 13, 7, m2, m3, m1);
    INLINED(duplicate, (id, -1), 13, 7, m2, m3, m1);
    INLINED(release_audits, (7), 14, 7);
    INLINED(remove_producer, (id, 47), 12, 7, m2, m3, 47);
}

/* the functions on a struct destination that are no requests, beside those on its arrays */
#define TWO_SUBS ((const uint64_t (*)[DESTINATION_SUB_WORDS])two.subs)
#define TWO_ROWS ((const uint64_t (*)[DESTINATION_ROW_WORDS])two.rows)
#define TWO two.head, DESTINATION_HEAD_WORDS, TWO_SUBS, DESTINATION_CONSUMERS, TWO_ROWS, DESTINATION_ROWS
#define SAME(a, b) (memcmp(&a, &b, sizeof a) == 0)

static void on_struct(void)
{
    CHECK(destination_open(&one, DESTINATION_QUEUE, 0, 100, 0, 0, 0).refusal == 0);
    CHECK(destination_enqueue(&one, (struct destination_entry){.sequence = 5, .expiration = 6}, 1).refusal == 0);
    CHECK(destination_enqueue(&one, (struct destination_entry){.sequence = 7, .redelivery = -8, .size = 9}, 1).refusal == 0);
    two = one;
    CHECK(is(destination_add_discarded_of(&one), 0, 0, 0) && one.head[10] == 1 && one.head[9] == 0);
    CHECK(is(destination_expired_before_storing_of(&one), 0, 0, 0) && one.head[10] == 1 && one.head[9] == 1);
    two = one;
    CHECK(asked(destination_is_queue_of(&one), 0, 1) && asked(destination_has_consumers_of(&one), 0, 0));
    CHECK(asked(destination_has_expiring_of(&one), 0, 1) && asked(destination_message_count_of(&one), 0, 2));
    CHECK(asked(destination_bytes_held_of(&one), 0, 9));
    CHECK(asked(destination_seq_at_of(&one, 1), 0, 7) && asked(destination_idle_for_of(&one, 9000, 1), 0, 0));
    struct destination_counted c = destination_counters_of(&one), raw = destination_counters(TWO);
    CHECK(SAME(c, raw) && c.enqueued == 2 && c.expired == 1 && c.discarded == 1);
    struct destination_page_line lines[DESTINATION_PAGE_LINES];
    struct destination_paged p = destination_page_of(&one, lines, DESTINATION_PAGE_LINES, 1, 9);
    CHECK(p.refusal == 0 && p.total == 2 && p.count == 1 && lines[0].sequence == 7 && lines[0].redelivery == -8);
    CHECK(destination_page_of(&one, lines, DESTINATION_PAGE_LINES - 1, 1, 9).refusal == 1);
    static struct destination_page_line wide[DESTINATION_OUTLOOK_LINES];
    struct destination_span span = {0, 6, 0, 9};
    CHECK(looked(destination_outlook_of(&one, wide, DESTINATION_OUTLOOK_LINES, span), 0, 1, 1, 0, 1) && wide[0].sequence == 5);
    CHECK(SAME(one, two));
}

/* ---- many calls */

static struct {
    uint64_t g0[GUARD];
    struct destination_outcome outcomes[5];
    uint64_t g1[GUARD];
    uint64_t events[DESTINATION_EVENTS + 2][DESTINATION_EVENT_WORDS];
    uint64_t g2[GUARD];
} many;

static const struct destination_request requests[5] = {{1, {51, 0, 1, 0, 0, 2, 3}},
                                                       {1, {52, 0, 1, 0, 0, 0, 3}},
                                                       {2, {61, 62, 63, 5, 64, 0, 3}},
                                                       {2, {61, 62, 63, 5, 64, 0, 3}},
                                                       {3, {61, 62, 63, 0, 3}}};

static struct destination_done batch(size_t requested, size_t outcomes, size_t events)
{
    for (size_t i = 0; i < sizeof many / 8; i++)
        ((uint64_t *)&many)[i] = GUARD_WORD;
    CHECK(destination_open(&one, DESTINATION_QUEUE, 0, 100, 0, 0, 0).refusal == 0);
    struct destination_done r = destination_calls_of(&one, many.events, events, requests, requested, many.outcomes, outcomes);
    CHECK(guarded(many.g0) && guarded(many.g1) && guarded(many.g2));
    return r;
}

/* with other lengths of the state: how many calls are done */
static size_t batch_lent(size_t head, size_t subs, size_t rows)
{
    return destination_calls(one.head, head, one.subs, subs, one.rows, rows, many.events, DESTINATION_EVENTS + 2, requests, 1,
                             many.outcomes, 5)
        .calls;
}

static void many_calls(void)
{
    struct destination_done r = batch(5, 5, DESTINATION_EVENTS + 2);
    CHECK(r.calls == 5 && r.events == 2);
    CHECK(is(many.outcomes[0], 0, 0, 0) && is(many.outcomes[1], 0, 0, 0) && is(many.outcomes[2], 0, 0, 2));
    CHECK(is(many.outcomes[3], 6, 0, 0) && is(many.outcomes[4], 0, 1, 0));
    CHECK(same(many.events[0], WORDS(2, 61, 62, 63, 51, 2, 2, 61, 62, 63, 52, 0, GUARD_WORD), 13));
    /* each of the three lengths ends it */
    r = batch(2, 5, DESTINATION_EVENTS + 2);
    CHECK(r.calls == 2 && r.events == 0 && many.outcomes[2].refusal == GUARD_WORD);
    r = batch(5, 4, DESTINATION_EVENTS + 2);
    CHECK(r.calls == 4 && r.events == 2 && many.outcomes[4].refusal == GUARD_WORD);
    r = batch(5, 5, DESTINATION_EVENTS + 1);
    CHECK(r.calls == 3 && r.events == 2 && many.outcomes[3].refusal == GUARD_WORD);
    r = batch(5, 5, DESTINATION_EVENTS - 1);
    CHECK(r.calls == 0 && r.events == 0);
    CHECK(batch_lent(8346, 32, 512) == 0 && batch_lent(8347, 31, 512) == 0 && batch_lent(8347, 32, 511) == 0);
    CHECK(batch_lent(8347, 32, 512) == 1);
}

/* ---- the account of a queue's blocks */

static struct {
    uint64_t g0[GUARD];
    struct destination_block held[DESTINATION_HELD_BLOCKS];
    uint64_t g1[GUARD];
    struct destination_block left[DESTINATION_LEFT_BLOCKS];
    uint64_t g2[GUARD];
} account;

static struct destination_noted note(struct destination_request r, size_t held, size_t in_use, size_t left)
{
    struct destination_noted n = destination_call_noted(one.head, DESTINATION_HEAD_WORDS, one.subs, DESTINATION_CONSUMERS, one.rows, DESTINATION_ROWS,
                                                        one.events, DESTINATION_EVENTS, account.held, held, in_use, account.left, left, r);
    CHECK(guarded(account.g0) && guarded(account.g1) && guarded(account.g2));
    return n;
}

static bool told(struct destination_noted n, uint64_t refusal, uint64_t answer, size_t events, size_t held, size_t left)
{
    return n.refusal == refusal && n.answer == answer && n.events == events && n.held == held && n.left == left;
}

static bool block(struct destination_block b, uint64_t sequence, uint64_t place, uint64_t persistent)
{
    return b.sequence == sequence && b.place == place && b.persistent == persistent;
}

static void noted_calls(void)
{
    const struct destination_request open = {0, {0, 0, 100, 0}}, first = {1, {51, 5, 1, 0, 0, 0, 3}}, second = {1, {52, 0, 0, 0, 0, 0, 3}};
    const struct destination_request join = {2, {61, 62, 63, 1, 64, 0, 3}}, sweep = {9, {5, 2}}, clear = {10, {0}};
    for (size_t i = 0; i < sizeof account / 8; i++)
        ((uint64_t *)&account)[i] = GUARD_WORD;
    CHECK(told(note(open, 511, 0, 513), 1, 0, 0, 0, 0) && told(note(open, 512, 0, 512), 1, 0, 0, 0, 0));
    CHECK(told(note(open, 512, 513, 513), 1, 0, 0, 513, 0));
    CHECK(told(note(open, 512, 7, 513), 0, 0, 0, 0, 0) && block(account.held[0], GUARD_WORD, GUARD_WORD, GUARD_WORD));
    CHECK(told(note(first, 512, 0, 513), 0, 0, 0, 1, 0) && block(account.held[0], 51, DESTINATION_PLACE_WAITING, 1));
    CHECK(told(note(first, 512, 1, 513), 4, 0, 0, 1, 0));
    CHECK(told(note(second, 512, 1, 513), 0, 0, 0, 2, 0) && block(account.held[1], 52, DESTINATION_PLACE_WAITING, 0));
    CHECK(told(note(sweep, 512, 2, 513), 0, 1, 0, 1, 1) && block(account.left[0], 51, DESTINATION_PLACE_EXPIRED, 1));
    CHECK(block(account.held[0], 52, DESTINATION_PLACE_WAITING, 0) && block(account.left[1], GUARD_WORD, GUARD_WORD, GUARD_WORD));
    CHECK(told(destination_call_noted_of(&one, account.held, 1, account.left, join), 0, 0, 1, 1, 0) && block(account.held[0], 52, DESTINATION_PLACE_IN_FLIGHT, 0));
    CHECK(told(note(clear, 512, 1, 513), 0, 1, 0, 0, 1) && block(account.left[0], 52, DESTINATION_PLACE_CLEARED, 0));
}

static void events(void)
{
    const uint64_t letter[6] = {1, 5, UINT64_MAX, 1, 0, 0}, message[6] = {2, 3, UINT64_MAX - 3, 4, 6, 7};
    const uint64_t null[6] = {3, UINT64_MAX, 8, UINT64_MAX, 0, 0}, plain[6] = {1, 5, 2147483647, 0, 0, 0};
    CHECK(destination_event_kind(letter) == DESTINATION_DEAD_LETTER);
    CHECK(destination_event_sequence(letter) == 5 && destination_event_redelivery(letter) == -1);
    CHECK(destination_event_cause(letter) && !destination_event_cause(plain) && !destination_event_cause(message));
    CHECK(destination_event_redelivery(plain) == 2147483647);
    CHECK(destination_event_kind(message) == DESTINATION_MESSAGE);
    CHECK(destination_event_sequence(message) == 6 && destination_event_redelivery(message) == 7);
    struct destination_id id = destination_event_consumer(message);
    CHECK(id.connection == 3 && id.session == -4 && id.value == 4);
    CHECK(destination_event_kind(null) == DESTINATION_NULL);
    id = destination_event_consumer(null);
    CHECK(id.connection == UINT64_MAX && id.session == 8 && id.value == -1);
    CHECK(destination_signed(UINT64_C(1) << 63) == INT64_MIN && destination_signed(INT64_MAX) == INT64_MAX);
}

int main(void)
{
    limits();
    shares();
    places();
    counters();
    queries();
    fill();
    outlooks();
    inline_functions();
    on_struct();
    many_calls();
    noted_calls();
    events();
    printf("declarations: %d checks hold\n", checks);
    return 0;
}
