/* Random calls on stations that real calls have left, on the same with up to four words damaged in any buffer, on wholly random words and on arrays of
 * random lengths. Each call ends with the refusal that the papers say (paper.h). A refused one leaves every word as it was. An accepted one leaves a sound
 * station, its events name open destinations, and nothing changes past the state's sizes, past its events, or in the part of a destination that it does not reach.
 * Each call is made once more with station_call_told, on a copy: it does the same, and the rows of its letters fit the events and what the destinations then hold.
 *
 *     damaged [SEED [STATIONS]]
 */
#include <inttypes.h>
#include <stdio.h>
#include <stdlib.h>

#include "paper.h"
#include "traffic.h"

#define GUARD 16

/* longer than they need to be, and with words between them that nobody may touch */
struct buffers {
    uint64_t g0[GUARD];
    uint64_t heads[STATION_HEAD_WORDS + 40];
    uint64_t g1[GUARD];
    uint64_t subs[STATION_CONSUMERS + 4][DESTINATION_SUB_WORDS];
    uint64_t g2[GUARD];
    uint64_t rows[STATION_ROWS + 8][DESTINATION_ROW_WORDS];
    uint64_t g3[GUARD];
    uint64_t own[STATION_OWN_WORDS + 6];
    uint64_t g4[GUARD];
    uint64_t events[STATION_EVENTS + 60][DESTINATION_EVENT_WORDS];
    uint64_t g5[GUARD];
};

static struct buffers work;   /* what is lent */
static struct buffers before; /* the same as it was before the call */
static struct buffers clean;  /* what real calls have left */
static struct buffers copy;   /* what is lent to the same call told */

enum kind { REAL, DAMAGED, LENGTHS, RANDOM };
static const char *const kinds[4] = {"real", "damaged", "of other lengths", "random"};
#define REFUSALS 15
static uint64_t got[4][REFUSALS];
static uint64_t seed = 1, letters, lost, most_sent, reached;
static enum kind kind;
static uint64_t stations, clock_now;

static _Noreturn void wrong(const char *what)
{
    printf("seed %" PRIu64 ", station %" PRIu64 ": %s\n", seed, stations, what);
    exit(1);
}

/* the lengths that are lent: these, the full ones or random ones */
static struct station_lent lengths;

static struct station_lent lent_of(const struct buffers *b)
{
    struct station_lent s = lengths;
    s.heads = b->heads;
    s.subs = b->subs;
    s.rows = b->rows;
    s.own = b->own;
    return s;
}

static size_t full(size_t needed, size_t there)
{
    return one_in(2) ? needed : needed + below(there - needed + 1);
}

static void choose_lengths(void)
{
    lengths.heads_length = full(STATION_HEAD_WORDS, STATION_HEAD_WORDS + 40);
    lengths.subs_length = full(STATION_CONSUMERS, STATION_CONSUMERS + 4);
    lengths.rows_length = full(STATION_ROWS, STATION_ROWS + 8);
    lengths.own_length = full(STATION_OWN_WORDS, STATION_OWN_WORDS + 6);
    lengths.events_length = full(STATION_EVENTS, STATION_EVENTS + 60);
    if (kind != LENGTHS)
        return;
    size_t *which[5] = {&lengths.heads_length, &lengths.subs_length, &lengths.rows_length, &lengths.own_length, &lengths.events_length};
    size_t *l = which[below(5)];
    *l = one_in(2) ? below(*l + 1) : *l - below(2);
}

static struct station_part part_in(const struct buffers *b, size_t k)
{
    struct station_part p = {b->heads + DESTINATION_HEAD_WORDS * k, b->subs + DESTINATION_CONSUMERS * k, b->rows + DESTINATION_ROWS * k};
    return p;
}

/* what real calls have left at a place; an empty part where none is open, as it may hold anything there */
static struct station_part clean_part(size_t k)
{
    static struct destination empty;
    struct station_part none = {empty.head, (const void *)empty.subs, (const void *)empty.rows};
    return clean.own[k] == 1 ? part_in(&clean, k) : none;
}

/* ---- damage */

/* a word of any buffer, most often one that is in use */
static uint64_t *some_word(struct buffers *b)
{
    size_t k = below(8);
    uint64_t consumers = clean_part(k).head[12];
    size_t used = traffic_used(clean_part(k));
    switch (below(8)) {
    case 0:
    case 1:
        return &b->own[below(STATION_OWN_WORDS)];
    case 2:
    case 3:
        return &b->heads[DESTINATION_HEAD_WORDS * k + (one_in(4) ? below(DESTINATION_HEAD_WORDS) : below(17))];
    case 4:
        return &b->subs[DESTINATION_CONSUMERS * k + below(consumers != 0 ? consumers : 32)][below(16)];
    case 5:
    case 6:
        return &b->rows[DESTINATION_ROWS * k + below(used != 0 ? used : 512)][below(10)];
    default:
        return &b->events[below(STATION_EVENTS)][below(6)];
    }
}

static uint64_t odd_number(uint64_t word)
{
    static const uint64_t ends[] = {0, 1, 2, 7, 8, 9, 32, 33, 512, 513, 1024, UINT64_C(1) << 31, UINT64_C(1) << 32, DESTINATION_CLOCK_MOST + 1, DESTINATION_SEQUENCE_MOST,
                                    DESTINATION_SEQUENCE_MOST + 1, DESTINATION_SEQUENCE_MOST + 2, UINT64_MAX};
    switch (below(4)) {
    case 0:
        return any();
    case 1:
        return word + below(3) - 1;
    default:
        return ends[below(sizeof ends / sizeof *ends)];
    }
}

static void damage(void)
{
    if (kind == RANDOM) {
        uint64_t *w = one_in(2) ? work.own : one_in(2) ? work.heads : work.heads + DESTINATION_HEAD_WORDS * below(8);
        size_t many = w == work.heads ? (size_t)(work.g4 - work.heads) : STATION_OWN_WORDS;
        for (size_t i = 0; i < many; i++)
            w[i] = one_in(3) ? any() : below(3);
        memcpy(work.g1, clean.g1, sizeof work.g1);
        memcpy(work.g2, clean.g2, sizeof work.g2);
        memcpy(work.g3, clean.g3, sizeof work.g3);
        return;
    }
    for (uint64_t n = 1 + below(4); n > 0; n--) {
        uint64_t *w = some_word(&work);
        *w = odd_number(*w);
    }
}

/* ---- what a call may have done */

/* the bytes of two arrays from one place to another */
static bool same(const void *a, const void *b, size_t from, size_t to)
{
    return memcmp((const char *)a + from, (const char *)b + from, to - from) == 0;
}

/* the guards, and what stands past the state's sizes and past the events */
static bool same_outside(size_t events)
{
    return same(work.g0, before.g0, 0, sizeof work.g0) && same(work.heads, before.heads, 8 * STATION_HEAD_WORDS, sizeof work.heads) &&
           same(work.g1, before.g1, 0, sizeof work.g1) && same(work.subs, before.subs, sizeof *work.subs * STATION_CONSUMERS, sizeof work.subs) &&
           same(work.g2, before.g2, 0, sizeof work.g2) && same(work.rows, before.rows, sizeof *work.rows * STATION_ROWS, sizeof work.rows) &&
           same(work.g3, before.g3, 0, sizeof work.g3) && same(work.own, before.own, 8 * 18, sizeof work.own) && same(work.g4, before.g4, 0, sizeof work.g4) &&
           same(work.events, before.events, sizeof *work.events * events, sizeof work.events) && same(work.g5, before.g5, 0, sizeof work.g5);
}

static bool same_part(size_t k)
{
    return same(work.heads, before.heads, 8 * DESTINATION_HEAD_WORDS * k, 8 * DESTINATION_HEAD_WORDS * (k + 1)) &&
           same(work.subs, before.subs, sizeof *work.subs * DESTINATION_CONSUMERS * k, sizeof *work.subs * DESTINATION_CONSUMERS * (k + 1)) &&
           same(work.rows, before.rows, sizeof *work.rows * DESTINATION_ROWS * k, sizeof *work.rows * DESTINATION_ROWS * (k + 1));
}

/* the events name open destinations; how many are dead letters, all of them the called one's */
static uint64_t count_letters(size_t events, uint64_t number)
{
    uint64_t n = 0;
    for (size_t i = 0; i < events; i++) {
        const uint64_t *e = work.events[i];
        if (STATION_EVENT_DESTINATION(e) > 7 || work.own[STATION_EVENT_DESTINATION(e)] != 1 || STATION_EVENT_KIND(e) < 1 || STATION_EVENT_KIND(e) > 3)
            wrong("an event of no open destination or of no kind");
        if (STATION_EVENT_KIND(e) == DESTINATION_DEAD_LETTER && STATION_EVENT_DESTINATION(e) != number)
            wrong("a dead letter of another destination");
        n += STATION_EVENT_KIND(e) == DESTINATION_DEAD_LETTER;
    }
    return n;
}

/* an accepted call, a start apart */
static void check_accepted(struct destination_outcome o, uint64_t number, uint64_t code)
{
    uint64_t dead = count_letters(o.events, number), taken = work.own[STATION_OWN_NEXT] - before.own[STATION_OWN_NEXT];
    uint64_t gone = work.own[STATION_OWN_LOST] - before.own[STATION_OWN_LOST];
    uint64_t left = STATION_NUMBERS_END - before.own[STATION_OWN_NEXT];
    if (code == DESTINATION_OPEN ? !paper_sound(paper_part(lent_of(&work), number)) : !paper_station_sound(lent_of(&work)))
        wrong("an accepted call has left what is not sound");
    if (!same_outside(o.events))
        wrong("an accepted call has changed what is not its own");
    for (size_t k = 0; k < 8; k++) {
        bool kept = same_part(k);
        if (!kept && k != number && dead == 0)
            wrong("a call has changed another destination");
        if (!kept && work.own[k] == 0)
            wrong("a call has changed a destination that is not open");
        reached += !kept && k != number;
    }
    if (code != DESTINATION_OPEN && !same(work.own, before.own, 0, 8 * 16))
        wrong("a call has changed a mark or a name");
    if (taken != (code == DESTINATION_ENQUEUE ? 1 : dead < left ? dead : left) || gone > dead)
        wrong("the numbers taken or lost are not those of the letters");
    letters += dead;
    lost += gone;
    most_sent = o.events > most_sent ? o.events : most_sent;
}

static void check_query(void)
{
    struct station_numbered n = station_numbers(work.heads, lengths.heads_length, (const void *)work.subs, lengths.subs_length, (const void *)work.rows,
                                                lengths.rows_length, work.own, lengths.own_length);
    uint64_t expected = paper_station_asked(lent_of(&work));
    if (n.refusal != expected || n.next != (expected ? 0 : work.own[STATION_OWN_NEXT]) || n.lost != (expected ? 0 : work.own[STATION_OWN_LOST]))
        wrong("the query answers something else");
}

/* ---- the same call told */

enum { LIST = STATION_LETTERS + 2, UNTOLD = 0x5A };

static struct station_told told[LIST], fewer[LIST];
static uint64_t told_stored, told_gone, told_unnumbered, told_short;

/* the row of an entry, of those in use */
static const uint64_t *row_of(const struct buffers *b, size_t k, uint64_t sequence)
{
    struct station_part p = part_in(b, k);
    size_t used = traffic_used(p);
    for (size_t i = 0; i < used; i++)
        if (p.rows[i][0] == sequence)
            return p.rows[i];
    return NULL;
}

/* whether a rejected row may be this letter: with the same fields, or gone, as a queue has found it expired or a topic has nobody for it */
static bool may_be(const uint64_t *was, const uint64_t *is, const uint64_t *head, uint64_t clock)
{
    if (was[2] != 1)
        return false;
    if (is != NULL)
        return memcmp(is + 1, was + 1, 5 * sizeof *is) == 0 && is[9] == was[9];
    return head[0] == DESTINATION_TOPIC || (destination_signed(was[1]) > 0 && was[1] + head[DESTINATION_HEAD_ALLOWANCE] <= clock);
}

/* a stored letter is held, with its other fields as those of a copy that was rejected */
static void check_stored(struct station_told t, uint64_t number, uint64_t clock)
{
    const uint64_t *is = row_of(&work, t.destination, t.got);
    struct station_part p = part_in(&before, number);
    size_t used = traffic_used(p), i = 0;
    while (i < used && !(p.rows[i][0] == t.had && may_be(p.rows[i], is, part_in(&work, t.destination).head, clock)))
        i++;
    if (i == used || work.own[t.destination] != 1)
        wrong("a stored letter is not there, or was another entry");
    told_stored++;
    told_gone += is == NULL;
}

/* the first numbers are those of the call's dead-letter events, in order */
static bool as_the_events(size_t letters_told, size_t events, uint64_t number)
{
    size_t i = 0;
    for (size_t e = 0; e < events; e++)
        if (STATION_EVENT_KIND(work.events[e]) == DESTINATION_DEAD_LETTER)
            if (STATION_EVENT_DESTINATION(work.events[e]) != number || i == letters_told || told[i++].had != station_event_sequence(work.events[e]))
                return false;
    return i == letters_told;
}

/* the rows of a call that has letters: numbers, places, the lost count, and a call used for each that is stored */
static void check_rows(size_t n, uint64_t number, uint64_t clock)
{
    uint64_t next = before.own[STATION_OWN_NEXT], room = STATION_LOST_MOST - before.own[STATION_OWN_LOST], nowhere = 0, at[8] = {0};
    for (size_t i = 0; i < n; i++) {
        uint64_t got_now = next < STATION_NUMBERS_END ? next++ : 0;
        if (told[i].got != got_now || told[i].destination > STATION_LOST || (got_now == 0 && told[i].destination != STATION_LOST))
            wrong("a letter is told with another number, or with a place that it has not");
        told_unnumbered += got_now == 0;
        if (told[i].destination == STATION_LOST) {
            nowhere++;
        } else {
            at[told[i].destination]++;
            check_stored(told[i], number, clock);
        }
    }
    if (next != work.own[STATION_OWN_NEXT] || work.own[STATION_OWN_LOST] - before.own[STATION_OWN_LOST] != (nowhere < room ? nowhere : room))
        wrong("the numbers taken or lost are not those that are told");
    for (size_t k = 0; k < 8; k++)
        if (work.own[k] == 1 && part_in(&work, k).head[DESTINATION_HEAD_CALLS_USED] != part_in(&before, k).head[DESTINATION_HEAD_CALLS_USED] + at[k] + (k == number))
            wrong("a destination has not stored the letters that are told");
}

/* the call on a copy, with a list of some rows: it does what station_call did, and leaves the list past its rows as it was. How many letters there are. */
static size_t tell(struct destination_outcome o, uint64_t number, struct destination_request r, struct station_told *list, size_t length)
{
    static struct station_told untold[LIST];
    memcpy(&copy, &before, sizeof copy);
    memset(list, UNTOLD, sizeof untold);
    memset(untold, UNTOLD, sizeof untold);
    struct station_told_outcome t = station_call_told(copy.heads, lengths.heads_length, copy.subs, lengths.subs_length, copy.rows, lengths.rows_length, copy.own,
                                                      lengths.own_length, copy.events, lengths.events_length, list, length, number, r);
    if (t.refusal != o.refusal || t.answer != o.answer || t.events != o.events || memcmp(&copy, &work, sizeof copy) != 0)
        wrong("a told call does something else");
    if (t.letters > STATION_LETTERS || (o.refusal != 0 && t.letters != 0))
        wrong("more letters than a call can have");
    size_t written = t.letters < length ? t.letters : length;
    if (memcmp(list + written, untold, (LIST - written) * sizeof *list) != 0)
        wrong("a told call has written past its rows");
    return t.letters;
}

static void check_told(struct destination_outcome o, uint64_t number, struct destination_request r)
{
    static const size_t some[] = {0, 1, 3};
    size_t n = tell(o, number, r, told, STATION_LETTERS);
    if (!as_the_events(n, o.events, number))
        wrong("other letters are told than the events say");
    if (n == 0)
        return;
    check_rows(n, number, r.words[6]);
    for (size_t i = 0; i < 3; i++) {
        if (tell(o, number, r, fewer, some[i]) != n || memcmp(fewer, told, (n < some[i] ? n : some[i]) * sizeof *told) != 0)
            wrong("a short list has other rows");
        told_short += some[i] < n;
    }
}

/* ---- a call */

static void check(struct destination_outcome o, uint64_t expected, uint64_t number, uint64_t code)
{
    if (o.refusal != expected) {
        printf("refusal %" PRIu64 " and not %" PRIu64 ", code %" PRIu64 "\n", o.refusal, expected, code);
        wrong("another refusal");
    }
    got[kind][o.refusal]++;
    if (o.refusal == 0)
        check_accepted(o, number, code);
    else if (o.answer != 0 || o.events != 0 || memcmp(&work, &before, sizeof work) != 0)
        wrong("a refused call has changed or answered something");
}

static void call_uncoded(uint64_t number)
{
    uint64_t expected = paper_station_uncoded(lent_of(&work), number);
    struct destination_outcome o;
    if (one_in(2))
        o = station_add_discarded(work.heads, lengths.heads_length, work.subs, lengths.subs_length, work.rows, lengths.rows_length, work.own, lengths.own_length,
                                  work.events, lengths.events_length, number);
    else
        o = station_expired_before_storing(work.heads, lengths.heads_length, work.subs, lengths.subs_length, work.rows, lengths.rows_length, work.own,
                                           lengths.own_length, work.events, lengths.events_length, number);
    check(o, expected, number, DESTINATION_SWEEP);
}

static struct destination_request some_request(uint64_t k)
{
    struct destination_request r = traffic(clean_part(k), clock_now);
    if (one_in(25)) {
        r = traffic_open(clock_now);
        r.words[6] = one_in(3) ? 7 + below(4) : r.words[6];
    }
    if (one_in(6))
        r.words[below(8)] = odd_number(r.words[below(8)]);
    if (one_in(60))
        r.code = below(18);
    return r;
}

static void call(void)
{
    uint64_t number = one_in(40) ? odd_number(8) : below(8) & below(8); /* often a low one */
    struct destination_request r = some_request(number % 8);
    check_query();
    if (memcmp(&work, &before, sizeof work) != 0)
        wrong("the query has changed something");
    if (one_in(30)) {
        call_uncoded(number);
        return;
    }
    uint64_t expected = paper_station_refusal(lent_of(&work), number, r);
    struct destination_outcome o = station_call(work.heads, lengths.heads_length, work.subs, lengths.subs_length, work.rows, lengths.rows_length, work.own,
                                                lengths.own_length, work.events, lengths.events_length, number, r);
    check(o, expected, number, r.code);
    check_told(o, number, r);
}

/* ---- a start, and opens */

static void start(void)
{
    bool is_short = paper_state_short(lent_of(&work)) || lengths.events_length < STATION_EVENTS;
    memcpy(&before, &work, sizeof work);
    uint64_t refusal = station_start(work.heads, lengths.heads_length, (const void *)work.subs, lengths.subs_length, (const void *)work.rows, lengths.rows_length,
                                     work.own, lengths.own_length, (const void *)work.events, lengths.events_length);
    if (refusal != (is_short ? 1 : 0))
        wrong("another refusal of a start");
    for (size_t i = 0; i < 18 && !is_short; i++)
        if (work.own[i] != (i == STATION_OWN_NEXT))
            wrong("a start leaves other own words");
    memcpy(before.own, work.own, is_short ? 0 : 8 * 18);
    if (memcmp(&work, &before, sizeof work) != 0)
        wrong("a start has changed something else");
}

static void new_station(void)
{
    start();
    if (one_in(4))
        work.own[STATION_OWN_NEXT] = STATION_NUMBERS_END - below(30);
    if (one_in(4))
        work.own[STATION_OWN_LOST] = STATION_LOST_MOST - below(3);
    for (size_t k = 0; k < 8; k++) {
        struct destination_request r = traffic_open(clock_now);
        if (one_in(5))
            continue;
        if (station_call(work.heads, lengths.heads_length, work.subs, lengths.subs_length, work.rows, lengths.rows_length, work.own, lengths.own_length, work.events,
                         lengths.events_length, k, r).refusal != 0)
            wrong("an open is refused");
    }
    memcpy(&clean, &work, sizeof work);
}

int main(int argc, char **argv)
{
    uint64_t many = argc > 2 ? strtoull(argv[2], NULL, 10) : 20000, left = 0;
    seed = argc > 1 ? strtoull(argv[1], NULL, 10) : 1;
    random_state = seed;
    for (size_t i = 0; i < sizeof work / 8; i++)
        ((uint64_t *)(void *)&work)[i] = any();
    for (stations = 0; stations < many; stations++) {
        clock_now += below(4);
        kind = REAL;
        choose_lengths();
        if (left-- == 0) {
            new_station();
            left = below(3000);
        }
        kind = one_in(3) ? one_in(5) ? RANDOM : one_in(4) ? LENGTHS : DAMAGED : REAL;
        choose_lengths();
        if (kind == DAMAGED || kind == RANDOM)
            damage();
        if (kind != REAL && one_in(60)) {
            start();
        } else {
            memcpy(&before, &work, sizeof work);
            call();
        }
        if (kind == REAL)
            memcpy(&clean, &work, sizeof work);
        else
            memcpy(&work, &clean, sizeof work);
    }
    for (size_t k = 0; k < 4; k++) {
        printf("%s:", kinds[k]);
        for (size_t i = 0; i < REFUSALS; i++)
            if (got[k][i] != 0)
                printf(" %zu %" PRIu64, i, got[k][i]);
        printf("\n");
    }
    printf("letters %" PRIu64 ", lost %" PRIu64 ", other destinations changed %" PRIu64 ", most events %" PRIu64 "\n", letters, lost, reached, most_sent);
    printf("told: stored %" PRIu64 ", %" PRIu64 " of them gone again or kept by nobody, without a number %" PRIu64 ", short lists %" PRIu64 "\n", told_stored, told_gone, told_unnumbered,
           told_short);
    return 0;
}
