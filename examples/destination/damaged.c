/* Random calls on states that real calls have left, on the same with up to four words damaged, on wholly random words and on arrays of
 * random lengths. Each call gets the refusal that the papers say (paper.h). A refused one leaves every word as it was. An accepted one leaves a
 * sound state, and nothing changes past the state's sizes and past its events.
 *
 *     damaged [SEED [STATES]]
 */
#include <inttypes.h>
#include <stdio.h>
#include <stdlib.h>
#include <string.h>

#include "destination.h"
#include "paper.h"

#include "../random.h"

#define GUARD 16

/* longer than they need to be, and with words between them that nobody may touch */
#define HEAD (DESTINATION_HEAD_WORDS + 40)
#define SUBS (DESTINATION_CONSUMERS + 4)
#define ROWS (DESTINATION_ROWS + 8)
#define EVENTS (DESTINATION_EVENTS + 60)

struct buffers {
    uint64_t g0[GUARD];
    uint64_t head[HEAD];
    uint64_t g1[GUARD];
    uint64_t subs[SUBS][DESTINATION_SUB_WORDS];
    uint64_t g2[GUARD];
    uint64_t rows[ROWS][DESTINATION_ROW_WORDS];
    uint64_t g3[GUARD];
    uint64_t events[EVENTS][DESTINATION_EVENT_WORDS];
    uint64_t g4[GUARD];
};

struct lengths {
    size_t head, subs, rows, events;
};

static struct buffers work;   /* what is lent */
static struct buffers before; /* the same as it was before the call */
static struct buffers clean;  /* what real calls have left */

static uint64_t seed = 1;
static uint64_t states, sent, most_sent, batches, batched;
static uint64_t marked[2]; /* states with one mark, kind or redelivery set: not sound, sound */
static uint64_t sized[2];  /* states with another size: not sound, sound */
static uint64_t shared_out[2]; /* states with a share about what a connection holds: not sound, sound */

/* states by kind and by what their call got (0: accepted) */
enum kind { REAL, DAMAGED, LENGTHS, RANDOM };
static enum kind kind;
#define REFUSALS 15
static uint64_t got[4][REFUSALS];

/* ---- random numbers */

/* mostly a number at which some range ends, or the next */
static uint64_t odd_number(void)
{
    static const uint64_t ends[] = {0, 1, 2, 3, 4, 8, 9, 32, 33, 64, 65, 512, 513, 1023, 1024, 1025, 4095, 4096, INT32_MAX,
                                    UINT64_C(1) << 31, DESTINATION_SIZE_MOST, UINT64_C(1) << 32, (uint64_t)INT32_MIN, (uint64_t)INT32_MIN - 1, DESTINATION_CALL_LIMIT_MOST,
                                    DESTINATION_CALL_LIMIT_MOST + 1, DESTINATION_ALLOWANCE_MOST, DESTINATION_ALLOWANCE_MOST + 1,
                                    DESTINATION_CLOCK_MOST, DESTINATION_CLOCK_MOST + 1, DESTINATION_SEQUENCE_MOST,
                                    DESTINATION_SEQUENCE_MOST + 1};
    switch (below(8)) {
    case 0:
        return any();
    case 1:
        return (UINT64_C(1) << below(64)) + below(3) - 1;
    case 2:
        return 0 - below(4);
    default:
        return ends[below(sizeof ends / sizeof *ends)];
    }
}

/* ---- real traffic */

static struct {
    uint64_t kind, clock, connections, values, sequence, left;
    uint64_t weights[16], total;
    bool browsed; /* much waits, and browsers look at it */
} world;

static uint64_t used_rows(void)
{
    uint64_t used = clean.head[15] + clean.head[16];
    for (uint64_t i = 0; i < clean.head[12]; i++)
        used += clean.subs[i][14] + clean.subs[i][15];
    return used;
}

/* the sequence number of some row, or one near the next */
static uint64_t some_sequence(void)
{
    uint64_t used = used_rows();
    if (used == 0 || one_in(8))
        return 1 + below(world.sequence + 2);
    return clean.rows[below(used)][0];
}

/* an identifier: often a consumer's that is present */
static void some_id(uint64_t *w)
{
    if (clean.head[12] != 0 && !one_in(3)) {
        memcpy(w, clean.subs[below(clean.head[12])], 24);
        return;
    }
    w[0] = below(world.connections);
    w[1] = 0 - below(2);
    w[2] = below(world.values);
}

static void some_ack(uint64_t *w)
{
    w[3] = below(one_in(10) ? 256 : 8) + 256u * one_in(4) + 512u * one_in(3) + 1024u * !one_in(10) + 2048u * one_in(2);
    w[4] = w[3] & 512 ? some_sequence() : 0;
    w[5] = w[3] & 1024 ? some_sequence() : 0;
    if (w[5] != 0 && one_in(20))
        w[5] = UINT64_MAX;
    w[6] = world.clock;
}

static void some_entry(uint64_t *w)
{
    w[0] = one_in(10) ? some_sequence() : one_in(20) ? 1 + below(world.sequence + 1) : ++world.sequence;
    w[1] = one_in(3) ? world.clock + below(40) : one_in(5) ? UINT64_MAX : 0;
    w[2] = below(2);
    w[3] = below(world.connections);
    w[4] = any() | any();
    w[5] = one_in(20) ? INT32_MAX : below(3);
    w[6] = world.clock;
    w[7] = one_in(4) ? below(4) : one_in(10) ? DESTINATION_SIZE_MOST - below(2) : below(UINT64_C(1) << below(33));
}

static void some_consumer(uint64_t *w)
{
    w[0] = below(world.connections);
    w[1] = 0 - below(2);
    w[2] = below(world.values);
    w[3] = one_in(8) ? UINT64_MAX : one_in(8) ? 600 : below(5);
    w[4] = one_in(3) ? below(64) : 64;
    w[5] = one_in(3) ? below(4) : 0;
    w[6] = world.clock;
    if (world.browsed) {
        w[3] = 0;
        w[5] = 2;
    }
}

/* a code by its weight */
static uint64_t some_code(void)
{
    uint64_t k = below(world.total), code = 1;
    while (k >= world.weights[code])
        k -= world.weights[code++];
    return code;
}

/* a call with an identifier: the words after it */
static void some_rest(uint64_t code, uint64_t *w)
{
    switch (code) {
    case DESTINATION_LEAVE:
        w[3] = one_in(2) ? UINT64_MAX : some_sequence();
        w[4] = world.clock;
        break;
    case DESTINATION_ACK:
        some_ack(w);
        break;
    case DESTINATION_PULL:
        w[3] = below(3) - 1;
        w[4] = world.clock;
        break;
    case DESTINATION_TIMEOUT:
        w[3] = below(4);
        break;
    case DESTINATION_PREFETCH:
        w[3] = below(6) - 1;
        w[4] = world.clock;
        break;
    case DESTINATION_RELEASE:
    case DESTINATION_REMOVE_PRODUCER:
        w[3] = world.clock;
        break;
    case DESTINATION_DUPLICATE:
        w[3] = below(one_in(2) ? 20 : 2000);
        break;
    default:
        break;
    }
}

static struct destination_request with_code(uint64_t code)
{
    struct destination_request r = {code, {0}};
    uint64_t *w = r.words;
    world.clock += below(4);
    switch (code) {
    case DESTINATION_ENQUEUE:
        some_entry(w);
        break;
    case DESTINATION_JOIN:
        some_consumer(w);
        break;
    case DESTINATION_SWEEP:
        w[0] = world.clock;
        w[1] = one_in(3) ? below(4) : below(513);
        break;
    case DESTINATION_CLEAR:
        break;
    case DESTINATION_RELEASE_AUDITS:
        w[0] = below(world.connections);
        break;
    default:
        some_id(w);
        some_rest(code, w);
    }
    return r;
}

/* stand for the two calls that have no code */
#define ADD_DISCARDED (UINT64_MAX - 100)
#define EXPIRED_BEFORE_STORING (UINT64_MAX - 101)

static bool uncoded(struct destination_request r)
{
    return r.code == ADD_DISCARDED || r.code == EXPIRED_BEFORE_STORING;
}

static struct destination_request plausible(void)
{
    struct destination_request none = {ADD_DISCARDED - below(2), {0}};
    return one_in(30) ? none : with_code(some_code());
}

/* one that may be out of range */
static struct destination_request wild(void)
{
    struct destination_request r = with_code(1 + below(15));
    if (one_in(8))
        r.code = one_in(4) ? odd_number() : below(17);
    size_t words = r.code < 16 && !one_in(4) ? paper_words[r.code] : 8;
    for (uint64_t n = below(3); n > 0 && words > 0; n--)
        r.words[below(words)] = odd_number();
    return r;
}

/* A new destination of some kind: few or many identifiers, any mix of calls. */
static struct destination_request new_world(void)
{
    static const uint64_t plain[16] = {0, 30, 6, 2, 25, 8, 3, 4, 1, 2, 0, 4, 2, 10, 1, 2};
    world.kind = below(2);
    world.clock = one_in(10) ? DESTINATION_CLOCK_MOST - 5000 : below(1000);
    world.connections = one_in(3) ? 12 : 3;
    world.values = one_in(3) ? 12 : 2;
    world.sequence = one_in(20) ? DESTINATION_SEQUENCE_MOST - 5000 : 0;
    world.left = below(one_in(4) ? 1000 : 300);
    memcpy(world.weights, plain, sizeof plain);
    world.weights[DESTINATION_CLEAR] = one_in(4);
    for (uint64_t n = below(4); n > 0; n--)
        world.weights[1 + below(15)] = 60 * below(3);
    world.weights[DESTINATION_ENQUEUE] += 5;
    world.browsed = one_in(9);
    if (world.browsed) {
        memset(world.weights, 0, sizeof world.weights);
        world.weights[DESTINATION_ENQUEUE] = 100;
        world.weights[DESTINATION_JOIN] = 4;
        world.left = 600;
        world.kind = 0;
    }
    world.total = 0;
    for (uint64_t i = 1; i < 16; i++)
        world.total += world.weights[i];
    uint64_t calls = one_in(5) ? 1 + below(1 + world.left) : DESTINATION_CALL_LIMIT_MOST;
    uint64_t allowance = one_in(2) ? 0 : one_in(4) ? DESTINATION_ALLOWANCE_MOST : below(60);
    uint64_t share = world.browsed || one_in(2) ? 0 : one_in(3) ? 1 + below(DESTINATION_SHARE_MOST) : 1 + below(40);
    struct destination_request r = {0, {world.kind, one_in(2) ? 0 : 1 + below(20), calls, world.clock, allowance, share}};
    return r;
}

/* ---- damage */

/* a word of the state, most often one that is in use */
static uint64_t *some_word(struct buffers *b)
{
    uint64_t consumers = clean.head[12], used = used_rows();
    switch (below(10)) {
    case 0:
    case 1:
    case 2:
        return &b->head[one_in(9) ? DESTINATION_HEAD_ALLOWANCE + below(2) : below(17)];
    case 3:
        return &b->head[17 + below(96)];
    case 4:
        return &b->head[113 + 1029 * below(8) + below(one_in(4) ? 1029 : 5)];
    case 5:
    case 6:
        return &b->subs[below(consumers != 0 ? consumers : 32)][below(16)];
    case 7:
    case 8:
        return &b->rows[below(used != 0 ? used : 512)][below(10)];
    default:
        return &b->rows[below(512)][below(10)];
    }
}

/* another number for a word: near it, at some end, any, or one that stands elsewhere */
static uint64_t damaged(uint64_t word)
{
    switch (below(8)) {
    case 0:
        return word + 1;
    case 1:
        return word - 1;
    case 2:
        return *some_word(&work);
    case 3:
        return word ^ UINT64_C(1) << below(64);
    case 4:
    case 5:
        return 65536 * clean.head[3] + 1 + below(2);
    default:
        return odd_number();
    }
}

static void put(uint64_t *w, uint64_t word)
{
    *w = word;
    *(uint64_t *)((char *)&before + ((char *)w - (char *)&work)) = word;
}

/* two words that say something only together */
static void damage_pair(void)
{
    uint64_t *audit = work.head + 113 + 1029 * below(8), *c = work.subs[below(clean.head[12] + 1) % DESTINATION_CONSUMERS];
    switch (below(5)) {
    case 0:
        put(&audit[3], below(2) * (1023 + below(3)));
        put(&audit[4], 1023 + below(3));
        break;
    case 1:
        put(&c[10], 1);
        put(&c[11], 65536 * clean.head[3] + 1 + below(2));
        break;
    case 2:
        put(&work.head[5], below(2));
        put(&work.head[6], DESTINATION_CLOCK_MOST + below(2));
        break;
    case 3:
        put(&work.head[DESTINATION_HEAD_ALLOWANCE], DESTINATION_ALLOWANCE_MOST + below(2));
        put(&work.head[2], clean.head[3] + 1 + below(2));
        break;
    default:
        put(&work.head[2], clean.head[3] + below(2));
        put(&work.head[12], clean.head[12] + below(2));
    }
}

static struct lent lent(struct lengths n);

/* whether another row in use has this row's number */
static bool shared(uint64_t at)
{
    uint64_t used = used_rows(), n = 0;
    for (uint64_t i = 0; i < used; i++)
        n += work.rows[i][0] == work.rows[at][0];
    return n > 1;
}

static const struct lengths exact = {DESTINATION_HEAD_WORDS, DESTINATION_CONSUMERS, DESTINATION_ROWS, DESTINATION_EVENTS};

/* The size of a row, mostly of one that has copies: all of them, or it alone, another size. */
static void damage_size(void)
{
    uint64_t used = used_rows(), at = below(used + 1), size = one_in(8) ? odd_number() : one_in(4) ? 0 : work.rows[at % ROWS][9] + below(3) - 1;
    bool together = one_in(2);
    for (uint64_t n = 0; n < used && !shared(at); n++)
        at = (at + 1) % used;
    for (uint64_t i = 0; i < used; i++)
        if (i == at || (together && work.rows[i][0] == work.rows[at][0]))
            put(&work.rows[i][9], size);
    sized[paper_sound(lent(exact))]++;
}

/* The share: what the fullest connections hold, or one less or more. */
static void damage_share(void)
{
    struct lent s = lent(exact);
    uint64_t used = used_rows(), most = 0;
    for (uint64_t i = 0; i < used; i++) {
        uint64_t n = paper_owned(s, i) ? paper_rows_from(s, work.rows[i][3]) : 0;
        most = n > most ? n : most;
    }
    put(&work.head[DESTINATION_HEAD_SHARE], most + below(3) - 1);
    if (one_in(3) && used != 0)
        put(&work.rows[below(used)][3], work.rows[below(used)][3]);
    shared_out[paper_sound(lent(exact))]++;
}

/* the kind, a mark or a redelivery, sometimes where it is not in use */
static void damage_mark(void)
{
    static const size_t of_consumer[] = {5, 6, 7, 10}, of_row[] = {2, 5, 7, 8};
    static const uint64_t ends[] = {0, 1, 2, 7, INT32_MAX, UINT64_C(1) << 31, UINT64_C(1) << 32, (uint64_t)INT32_MIN,
                                    (uint64_t)INT32_MIN - 1, UINT64_MAX};
    uint64_t word = ends[below(sizeof ends / sizeof *ends)];
    switch (below(4)) {
    case 0:
        put(&work.head[5 * below(2)], word);
        break;
    case 1:
        put(&work.subs[below(clean.head[12] + 1) % DESTINATION_CONSUMERS][of_consumer[below(4)]], word);
        break;
    default:
        put(&work.rows[below(used_rows() + 4) % DESTINATION_ROWS][of_row[below(4)]], word);
    }
    marked[paper_sound(lent(exact))]++;
}

static void damage(uint64_t words)
{
    if (words == 1 && one_in(4)) {
        damage_size();
        return;
    }
    if (words == 1 && one_in(4)) {
        damage_share();
        return;
    }
    if (words == 1 && one_in(2)) {
        damage_mark();
        return;
    }
    if (words == 2 && one_in(2)) {
        damage_pair();
        return;
    }
    for (; words > 0; words--) {
        uint64_t *w = some_word(&work);
        put(w, damaged(*w));
    }
}

/* mostly one of the two */
static uint64_t some_mark(void)
{
    return one_in(20) ? odd_number() : below(2);
}

/* kind and marks */
static void remark(struct buffers *b)
{
    b->head[0] = some_mark();
    b->head[5] = some_mark();
    for (size_t i = 0; i < SUBS; i++) {
        for (size_t j = 5; j < 8; j++)
            b->subs[i][j] = some_mark();
        b->subs[i][10] = some_mark();
    }
    for (size_t i = 0; i < ROWS; i++) {
        b->rows[i][2] = some_mark();
        b->rows[i][7] = some_mark();
        b->rows[i][8] = some_mark();
    }
}

/* any words at all; sometimes small ones, so that the counts may fit, and marks */
static void randomise(struct buffers *b)
{
    uint64_t small = below(3);
    for (size_t i = 0; i < HEAD; i++)
        b->head[i] = small ? below(small * 4) : odd_number();
    for (size_t i = 0; i < SUBS; i++)
        for (size_t j = 0; j < DESTINATION_SUB_WORDS; j++)
            b->subs[i][j] = small ? below(small * 2) : odd_number();
    for (size_t i = 0; i < ROWS; i++)
        for (size_t j = 0; j < DESTINATION_ROW_WORDS; j++)
            b->rows[i][j] = small ? any() >> 40 : odd_number();
    if (small)
        remark(b);
}

/* ---- a call and what must hold after it */

static void fail(const char *what, struct destination_request r, struct destination_outcome o, uint64_t expected)
{
    printf("state %" PRIu64 " of seed %" PRIu64 ": %s\n", states, seed, what);
    printf("code %" PRIu64 ", words", r.code);
    for (size_t i = 0; i < 8; i++)
        printf(" %" PRIu64, r.words[i]);
    printf("\nrefusal %" PRIu64 " (the paper's: %" PRIu64 "), answer %" PRIu64 ", events %zu\n", o.refusal, expected, o.answer, o.events);
    exit(1);
}

static struct destination_outcome lend(struct lengths n, struct destination_request r)
{
    if (r.code == ADD_DISCARDED)
        return destination_add_discarded(work.head, n.head, work.subs, n.subs, work.rows, n.rows, work.events, n.events);
    if (r.code == EXPIRED_BEFORE_STORING)
        return destination_expired_before_storing(work.head, n.head, work.subs, n.subs, work.rows, n.rows, work.events, n.events);
    return destination_call(work.head, n.head, work.subs, n.subs, work.rows, n.rows, work.events, n.events, r);
}

/* one more is counted, one more call is used, and nothing else has changed, save an unused clock */
static bool counted(struct destination_request r)
{
    static struct buffers after;
    memcpy(&after, &before, sizeof after);
    after.head[6] = after.head[5] != 0 ? after.head[6] : work.head[6];
    after.head[r.code == ADD_DISCARDED ? 10 : 9]++;
    after.head[3]++;
    return memcmp(&after, &work, sizeof after) == 0;
}

static struct lent lent(struct lengths n)
{
    struct lent s = {work.head, (const uint64_t (*)[DESTINATION_SUB_WORDS])work.subs, (const uint64_t (*)[DESTINATION_ROW_WORDS])work.rows,
                     n.head,    n.subs, n.rows, n.events};
    return s;
}

#define SAME(part, from) (memcmp((char *)work.part + (from), (char *)before.part + (from), sizeof work.part - (from)) == 0)

/* all that is no part of the state or of the events is as it was */
static bool outside_kept(size_t events)
{
    return SAME(g0, 0) && SAME(g1, 0) && SAME(g2, 0) && SAME(g3, 0) && SAME(g4, 0) && SAME(head, DESTINATION_HEAD_WORDS * 8) &&
           SAME(subs, DESTINATION_CONSUMERS * 128) && SAME(rows, DESTINATION_ROWS * 80) && SAME(events, events * 48);
}

static void ask(struct lengths n);

static struct destination_outcome tried(struct lengths n, struct destination_request r, bool real)
{
    static const struct destination_request unknown = {16, {0}};
    ask(n);
    uint64_t expected = uncoded(r) ? paper_uncoded(lent(n)) : paper_refusal(lent(n), r);
    struct destination_outcome o = lend(n, r);
    got[kind][expected]++;
    if (o.refusal != expected)
        fail("another refusal than the paper's", r, o, expected);
    if (real && o.refusal == 2)
        fail("a state that real calls have left is refused", r, o, expected);
    if (o.refusal != 0) {
        if (o.answer != 0 || o.events != 0)
            fail("a refused call answers", r, o, expected);
        if (memcmp(&work, &before, sizeof work) != 0)
            fail("a refused call has changed something", r, o, expected);
        return o;
    }
    if (o.events > DESTINATION_EVENTS)
        fail("too many events", r, o, expected);
    if (!outside_kept(o.events))
        fail("something outside the state and the events has changed", r, o, expected);
    if (uncoded(r) && (o.answer != 0 || o.events != 0 || !counted(r)))
        fail("one of the calls without a code has done something else", r, o, expected);
    if (!paper_sound(lent(n)))
        fail("an accepted call leaves a state that is not sound, by the paper", r, o, expected);
    struct destination_outcome again = lend(n, unknown);
    if (again.refusal != 3 || again.answer != 0 || again.events != 0)
        fail("an accepted call leaves a state that is not sound, by the library", r, again, 3);
    sent += o.events;
    most_sent = o.events > most_sent ? o.events : most_sent;
    return o;
}

/* ---- a query on the same state: refusal and answer are the paper's, and nothing changes */

static uint64_t asked[18];

static void wrong(const char *what, uint64_t query, uint64_t a, uint64_t b)
{
    printf("state %" PRIu64 " of seed %" PRIu64 ": %s, query %" PRIu64 " with %" PRIu64 " and %" PRIu64 "\n", states, seed, what, query, a, b);
    exit(1);
}

#define LENT s.head, s.head_length, s.subs, s.subs_length, s.rows, s.rows_length

static struct destination_asked answered(struct lent s, enum query q, uint64_t a, uint64_t b)
{
    switch (q) {
    case IS_QUEUE:
        return destination_is_queue(LENT);
    case HAS_CONSUMERS:
        return destination_has_consumers(LENT);
    case HAS_EXPIRING:
        return destination_has_expiring(LENT);
    case MESSAGE_COUNT:
        return destination_message_count(LENT);
    case BYTES_HELD:
        return destination_bytes_held(LENT);
    case IDLE_FOR:
        return destination_idle_for(LENT, a, b);
    default:
        return destination_seq_at(LENT, a);
    }
}

static void ask_number(struct lent s, uint64_t barred)
{
    enum query q = (enum query)below(7);
    uint64_t a = q == IDLE_FOR && !one_in(4) ? world.clock + below(5000) : below(2) ? odd_number() : below(40);
    uint64_t b = below(6), refusal = barred == 0 && q == IDLE_FOR && a > DESTINATION_CLOCK_MOST ? 3 : barred;
    struct destination_asked r = answered(s, q, a, b);
    if (r.refusal != refusal || r.answer != (refusal != 0 ? 0 : paper_answer(s, q, a, b)))
        wrong("another answer than the paper's", q, a, b);
    asked[refusal]++;
}

static void ask_counters(struct lent s, uint64_t barred)
{
    static const uint64_t none[5];
    struct destination_counted c = destination_counters(LENT);
    uint64_t got[5] = {c.enqueued, c.dequeued, c.expired, c.discarded, c.dispatched};
    if (c.refusal != barred || memcmp(got, barred != 0 ? none : s.head + 7, sizeof got) != 0)
        wrong("other counters", 7, 0, 0);
    asked[barred]++;
}

static bool same_line(const struct destination_page_line *l, const uint64_t *row)
{
    return l->sequence == row[0] && l->expiration == destination_signed(row[1]) &&
           l->redelivery == destination_signed(row[5]);
}

static void ask_page(struct lent s, uint64_t barred)
{
    static struct destination_page_line lines[60], was[60];
    size_t length = one_in(8) ? below(50) : 50 + below(8);
    uint64_t offset = below(2) ? below(20) : odd_number(), limit = below(2) ? below(60) : odd_number();
    memset(lines, (int)below(256), sizeof lines);
    memcpy(was, lines, sizeof lines);
    struct destination_paged p = destination_page(LENT, lines, length, offset, limit);
    uint64_t refusal = length < 50 ? 1 : barred, waiting = refusal != 0 ? 0 : s.head[16];
    uint64_t most = limit < 50 ? limit : 50, left = offset < waiting ? waiting - offset : 0, count = left < most ? left : most;
    if (p.refusal != refusal || p.total != waiting || p.count != count)
        wrong("another page", 8, offset, limit);
    for (size_t i = 0; i < count; i++)
        if (!same_line(&lines[i], s.rows[paper_used(s) - waiting + offset + i]))
            wrong("another line", 8, offset, limit);
    if (memcmp(lines + count, was + count, (60 - count) * sizeof *lines) != 0)
        wrong("a line past the page has changed", 8, offset, limit);
    asked[refusal]++;
}

/* each line is one of those asked for, and each comes before the next, so that the count says that none is missing */
static bool listed(struct lent s, const struct destination_page_line *l, size_t count, struct destination_span span)
{
    size_t used = paper_used(s), before = used;
    for (size_t i = 0; i < count; i++) {
        size_t at = used - s.head[16];
        while (at < used && s.rows[at][0] != l[i].sequence)
            at++;
        if (at == used || !same_line(&l[i], s.rows[at]) || !paper_between(s, at, span) || (i > 0 && !paper_before(s.rows[before], s.rows[at])))
            return false;
        before = at;
    }
    return true;
}

static void ask_outlook(struct lent s, uint64_t barred)
{
    static struct destination_page_line lines[DESTINATION_OUTLOOK_LINES + 8], was[DESTINATION_OUTLOOK_LINES + 8];
    size_t length = DESTINATION_OUTLOOK_LINES + 8 - (one_in(8) ? 9 : 0);
    uint64_t now = world.clock + below(60), by = below(2) ? below(30) : odd_number();
    struct destination_span span = {now, now + by, destination_signed(one_in(2) ? now - below(30) : odd_number()),
                                    destination_signed(one_in(2) ? now + below(30) : odd_number())};
    memset(lines, (int)below(256), sizeof lines);
    memcpy(was, lines, sizeof lines);
    struct destination_outlooked o = destination_outlook(LENT, lines, length, span);
    bool far = span.earlier > DESTINATION_CLOCK_MOST || span.later > DESTINATION_CLOCK_MOST;
    uint64_t refusal = length < DESTINATION_OUTLOOK_LINES ? 1 : barred != 0 ? barred : far ? 3 : span.earlier > span.later ? 17 : 0;
    struct destination_outlooked wanted = {refusal, 0, 0, 0, 0, 0};
    if (refusal == 0)
        wanted = paper_outlook(s, span);
    if (memcmp(&o, &wanted, sizeof o) != 0 || (refusal == 0 && !listed(s, lines, o.count, span)))
        wrong("another outlook", 9, span.earlier, span.later);
    if (memcmp(lines + o.count, was + o.count, (DESTINATION_OUTLOOK_LINES + 8 - o.count) * sizeof *lines) != 0)
        wrong("a line past the outlook has changed", 9, span.earlier, span.later);
    asked[refusal]++;
}

static void ask(struct lengths n)
{
    struct lent s = lent(n);
    uint64_t barred = paper_barred(s);
    switch (below(5)) {
    case 4:
        ask_outlook(s, barred);
        break;
    case 0:
        ask_page(s, barred);
        break;
    case 1:
        ask_counters(s, barred);
        break;
    default:
        ask_number(s, barred);
    }
    if (memcmp(&work, &before, sizeof work) != 0)
        wrong("a query has changed something", 0, 0, 0);
}

/* ---- the states */

static size_t some_length(size_t least, size_t most)
{
    return one_in(4) ? least - 1 : one_in(6) ? below(least) : least + below(most - least + 1);
}

static struct lengths some_lengths(void)
{
    struct lengths n = {HEAD, SUBS, ROWS, EVENTS};
    n.head = some_length(DESTINATION_HEAD_WORDS, HEAD);
    n.subs = one_in(2) ? n.subs : some_length(DESTINATION_CONSUMERS, SUBS);
    n.rows = one_in(2) ? n.rows : some_length(DESTINATION_ROWS, ROWS);
    n.events = some_length(DESTINATION_EVENTS, EVENTS);
    return n;
}

/* Many calls at once, beside the same calls one after another, on a state as it stands; then back to the real state. */
#define MOST_CALLS 8

static void many(struct lengths n)
{
    static struct buffers after;
    n.events = one_in(3) ? n.events : EVENTS;
    struct destination_request r[MOST_CALLS];
    struct destination_outcome single[MOST_CALLS + 1], together[MOST_CALLS + 1];
    size_t calls = below(MOST_CALLS + 1), outcomes = one_in(3) ? below(MOST_CALLS) : MOST_CALLS, done = 0, at = 0;
    for (size_t i = 0; i < calls; i++)
        do
            r[i] = one_in(4) ? wild() : plausible();
        while (uncoded(r[i]));
    memset(single, 0x5A, sizeof single);
    memset(together, 0x5A, sizeof together);
    if (paper_barred(lent(n)) == 0)
        for (; done < calls && done < outcomes && n.events - at >= DESTINATION_EVENTS && n.events >= at; done++) {
            single[done] = destination_call(work.head, n.head, work.subs, n.subs, work.rows, n.rows, work.events + at, n.events - at, r[done]);
            at += single[done].events;
        }
    memcpy(&after, &work, sizeof work);
    memcpy(&work, &before, sizeof work);
    struct destination_done d = destination_calls(work.head, n.head, work.subs, n.subs, work.rows, n.rows, work.events, n.events, r, calls,
                                                  together, outcomes);
    if (d.calls != done || d.events != at || memcmp(single, together, sizeof single) != 0 || memcmp(&after, &work, sizeof work) != 0)
        wrong("many calls at once are not the calls one after another", calls, d.calls, d.events);
    batches++;
    batched += done;
    memcpy(&work, &before, sizeof work);
}

/* a real state, a call that may change it */
static void real(void)
{
    struct destination_request r = world.left == 0 ? new_world() : one_in(10) ? wild() : plausible();
    world.left -= world.left != 0;
    if (one_in(16))
        many(exact);
    uint64_t refusal = tried(exact, r, r.code != 0).refusal;
    if ((refusal == 9 || refusal == 5) && one_in(10))
        world.left = 0;
    if (refusal == 0) {
        memcpy(&before, &work, sizeof work);
        memcpy(&clean, &work, sizeof work);
        if (r.code == 0)
            world.kind = r.words[0];
    }
}

/* some words damaged, perhaps other lengths: and back to the real state */
static void harmed(uint64_t words, struct lengths n)
{
    struct destination_request r = one_in(4) ? wild() : plausible();
    damage(words);
    if (one_in(8))
        many(n);
    tried(n, r, words == 0);
    memcpy(&work, &clean, sizeof work);
    memcpy(&before, &clean, sizeof work);
}

static void wholly_random(void)
{
    struct destination_request open = {0, {below(2), below(513), 1 + below(50), world.clock}};
    struct destination_request r = one_in(4) ? open : one_in(2) ? wild() : plausible();
    randomise(&work);
    memcpy(&before, &work, sizeof work);
    tried(exact, r, false);
    memcpy(&work, &clean, sizeof work);
    memcpy(&before, &clean, sizeof work);
}

static void one_state(void)
{
    static const enum kind kinds[10] = {REAL, REAL, REAL, REAL, DAMAGED, DAMAGED, DAMAGED, DAMAGED, LENGTHS, RANDOM};
    kind = kinds[below(10)];
    switch (kind) {
    case REAL:
        real();
        break;
    case DAMAGED:
        harmed(1 + below(4), exact);
        break;
    case LENGTHS:
        harmed(below(5), some_lengths());
        break;
    case RANDOM:
        wholly_random();
        break;
    }
}

static bool refusal_known(size_t number)
{
    return number < 10 || number == 14;
}

/* says what was met; 1 where a refusal was not */
static int table(void)
{
    static const char *const names[4] = {"left by real calls", "1 to 4 words damaged", "random lengths", "wholly random words"};
    uint64_t met[REFUSALS] = {0};
    int missing = 0;
    printf("%" PRIu64 " states, seed %" PRIu64 "; accepted, then refused with 1 to 9 and 14\n", states, seed);
    for (size_t k = 0; k < 4; k++) {
        printf("%-22s", names[k]);
        for (size_t i = 0; i < REFUSALS; i++) {
            if (refusal_known(i))
                printf("%7" PRIu64, got[k][i]);
            met[i] += got[k][i];
        }
        printf("\n");
    }
    printf("%-22s", "together");
    for (size_t i = 0; i < REFUSALS; i++)
        if (refusal_known(i)) {
            printf("%7" PRIu64, met[i]);
            missing |= met[i] == 0;
        }
    printf("\nevents %" PRIu64 ", at most %" PRIu64 " in a call\n", sent, most_sent);
    printf("queries: answered %" PRIu64 ", refused with 1 %" PRIu64 ", 2 %" PRIu64 ", 3 %" PRIu64 ", 17 %" PRIu64 "\n", asked[0], asked[1], asked[2], asked[3], asked[17]);
    printf("many calls at once %" PRIu64 " times, %" PRIu64 " calls\n", batches, batched);
    printf("one mark, kind or redelivery set: sound %" PRIu64 ", not sound %" PRIu64 "\n", marked[1], marked[0]);
    printf("another size of a row or of all its copies: sound %" PRIu64 ", not sound %" PRIu64 "\n", sized[1], sized[0]);
    printf("a share about what a connection holds: sound %" PRIu64 ", not sound %" PRIu64 "\n", shared_out[1], shared_out[0]);
    missing |= marked[0] == 0 || marked[1] == 0 || sized[0] == 0 || sized[1] == 0 || shared_out[0] == 0 || shared_out[1] == 0;
    missing |= asked[0] == 0 || asked[1] == 0 || asked[2] == 0 || asked[3] == 0 || asked[17] == 0;
    if (missing)
        printf("not every refusal was met\n");
    return missing;
}

/* Any words, but what stands past the state's sizes looks as if it belonged to it. */
static void start(void)
{
    uint64_t *w = (uint64_t *)&work;
    for (size_t i = 0; i < sizeof work / 8; i++)
        w[i] = any();
    memset(work.head + DESTINATION_HEAD_WORDS, 0, (HEAD - DESTINATION_HEAD_WORDS) * 8);
    for (size_t i = DESTINATION_CONSUMERS; i < SUBS; i++) {
        memset(work.subs[i] + 3, 0, 13 * 8);
        work.subs[i][4] = 64;
    }
    for (size_t i = DESTINATION_ROWS; i < ROWS; i++)
        work.rows[i][0] = DESTINATION_SEQUENCE_MOST - ROWS + i;
}

int main(int argc, char **argv)
{
    uint64_t wanted = argc > 2 ? strtoull(argv[2], 0, 10) : 120000;
    seed = argc > 1 ? strtoull(argv[1], 0, 10) : 1;
    random_state = seed;
    start();
    memcpy(&before, &work, sizeof work);
    struct destination_request open = new_world();
    if (tried(exact, open, false).refusal != 0)
        fail("the first open", open, (struct destination_outcome){0, 0, 0}, 0);
    memcpy(&before, &work, sizeof work);
    memcpy(&clean, &work, sizeof work);
    memset(got, 0, sizeof got);
    for (states = 0; states < wanted; states++)
        one_state();
    return table();
}
