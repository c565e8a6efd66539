/* A message broker's destination: a queue or a topic, with its consumers and producers, in buffers that the caller owns.
 *
 * Entries come in with `enqueue` and go out to consumers as events. On a queue each entry goes to one consumer, and comes
 * back if that consumer leaves without acknowledging it; on a topic each consumer that accepts an entry gets a copy.
 * A consumer has room for as many entries as its prefetch says, and an acknowledgement makes room again. A browser is a
 * consumer that is sent copies of what waits on a queue when it joins, then a null.
 *
 * Link with libdestination.a (tools/build destination; x86-64). Nothing is allocated, nothing is kept between calls, there is
 * no clock and no thread: each call gets the state, an event list and the time, and writes the events into the list. The
 * host does what they say. docs/LIBRARY.md is a first tour, examples/destination has programs in C and Rust.
 *
 * The buffers. A state is three arrays of 64-bit words, and beside them there is a list for the events of one call:
 *
 *     head    8,347 words             the destination's own numbers, producers, duplicate windows
 *     subs       32 of 16 words       a consumer each
 *     rows      512 of 10 words       a copy of an entry each
 *     events    545 of  6 words       what the call has sent, from the first on
 *
 * `struct destination` has all four. Longer arrays will do: what stands past these sizes is never read or written. A shorter
 * one gets refusal 1. docs/LAYOUT.md says what each word of the state holds; a caller that only calls need not know.
 * The state starts with an accepted `open`, whatever the arrays held before. They may be copied, stored and lent again, at another
 * address too. What comes back is tested: a state whose numbers do not fit together, with a kind or a mark that is not 0 or 1, with a
 * redelivery or a size that is no 32-bit number, or with two sizes of one entry (not sound), gets refusal 2. Words that are not in use may be any.
 *
 * Whose memory. All of it is the caller's. The library keeps no pointer after a call. Each array is passed as a pointer to its first
 * element and its number of elements (words of head; rows of the others). No pointer may be null. Nobody else may read or write the
 * arrays during the call; the queries only read the state, so several may run at once on one state. A length above the array's true
 * one is an error that cannot be seen here. A call takes at most 12 kB of stack, one with its account 24 kB, bytes held 14 kB, an outlook 20 kB (DESTINATION_STACK_..;
 * examples/destination/stack.c measures them).
 *
 * Alignment. Each array starts at an address that 8 divides. Arrays of uint64_t and the structs below do, and so does what malloc gives;
 * a place among bytes, as in a buffer of char or a mapped file, need not. It is not tested.
 *
 * Overlap. No two arrays that are lent to one call may share a byte: head, subs, rows, the event list, the requests and outcomes of
 * destination_calls, the lists of blocks of destination_call_noted, the lines of a page. The library takes it that what it writes to one changes no other, and it is not tested.
 *
 * A call answers with a refusal, 0 for none. A REFUSED CALL HAS CHANGED NOTHING: state and events are as they were, the answer
 * is 0 and the number of events is 0.
 */
#ifndef DESTINATION_H
#define DESTINATION_H

#include <stdbool.h>
#include <stddef.h>
#include <stdint.h>

#ifdef __cplusplus
extern "C" {
#endif

/* ---- limits */

#define DESTINATION_HEAD_WORDS 8347 /* destination_head_words() says the same */
#define DESTINATION_CONSUMERS 32    /* destination_consumers() */
#define DESTINATION_ROWS 512        /* destination_rows() */
#define DESTINATION_EVENTS 545      /* destination_events() */
#define DESTINATION_OUTLOOK_LINES 512 /* destination_outlook_lines(): the fewest lines that the list of an outlook may have */
#define DESTINATION_HELD_BLOCKS 512 /* destination_held_blocks(): the fewest blocks that the list of those held may have */
#define DESTINATION_LEFT_BLOCKS 513 /* destination_left_blocks(): and that of those that leave in a call */
#define DESTINATION_PAGE_LINES 50   /* destination_page_lines(): the most lines that a page has, and the fewest that its list may have */

/* bytes of stack that a function takes at most, as measured: a call or a query; bytes held; an outlook */
#define DESTINATION_STACK_CALL 12288
#define DESTINATION_STACK_NOTED 24576 /* a call with its account */
#define DESTINATION_STACK_BYTES 14336
#define DESTINATION_STACK_OUTLOOK 20480

#define DESTINATION_SUB_WORDS 16
#define DESTINATION_ROW_WORDS 10
#define DESTINATION_EVENT_WORDS 6

#define DESTINATION_PRODUCERS 32 /* registered at a time */
#define DESTINATION_AUDITS 8     /* producers whose numbers are remembered at a time, 1,024 numbers each */

#define DESTINATION_CLOCK_MOST (UINT64_C(1) << 62)       /* a clock is 0 to this, in milliseconds */
#define DESTINATION_CALL_LIMIT_MOST (UINT64_C(1) << 40)  /* a call limit is 1 to this */
#define DESTINATION_SEQUENCE_MOST (UINT64_MAX >> 1)      /* a sequence number is 1 to this, 2^63 - 1 */
#define DESTINATION_TOPIC_LIMIT_MOST 512                 /* a topic limit is 0 (off) to this */
#define DESTINATION_SWEEP_MOST 512                       /* a sweep's maximum is 0 to this */
#define DESTINATION_SHARE_MOST 512                       /* a share of rows for each producer connection is 1 to this; 0 stands for it */
#define DESTINATION_SIZE_MOST UINT32_MAX                 /* an entry's size is 0 to this, in bytes */
#define DESTINATION_ALLOWANCE_MOST 86400000              /* an allowance for slow clocks is 0 to this: a day of milliseconds */

/* ---- refusals, in the order in which they are tested (a join tests 6, 7, 5) */

#define DESTINATION_ACCEPTED 0
#define DESTINATION_SHORT 1         /* a state array is short, the event list holds under 545, a page list under 50 lines, an outlook's
                                       under 512, a list of blocks held under 512 or more than that in use, or one of those that leave
                                       under 513 */
#define DESTINATION_NOT_SOUND 2     /* the state's numbers do not fit or are out of range, as before the first open; open does not ask */
#define DESTINATION_ARGUMENTS 3     /* a number is outside its range, a code is unknown, or an unused word is not 0 */
#define DESTINATION_READINGS_TURNED 17 /* an outlook: the earlier reading is above the later one */
#define DESTINATION_CALLS_USED_UP 9 /* as many calls were accepted as the call limit says; open does not ask */
#define DESTINATION_NUMBER_HELD 4   /* enqueue: the sequence number is held in a row, wherever it stands */
#define DESTINATION_SHARE_USED_UP 14 /* enqueue: with its rows its producer's connection would hold more than the share; never with a share
                                        of 512. Connection 0 is one of them. A queue's browsers' copies belong to no connection, those of a
                                        topic's browsers count */
#define DESTINATION_CONSUMER_HERE 6 /* join: a consumer with this identifier is present */
#define DESTINATION_CONSUMERS_FULL 7 /* join: 32 consumers are present */
#define DESTINATION_ROWS_FULL 5     /* enqueue, a browser's join: too few free rows. A queue's enqueue needs one, a topic's one for
                                       each consumer that accepts the entry, a browser's join one for each entry that it is to see */
#define DESTINATION_PRODUCERS_FULL 8 /* add producer: a new one, and 32 are registered; duplicate: a new one, and 8 are remembered */

/* ---- codes of calls */

#define DESTINATION_OPEN 0
#define DESTINATION_ENQUEUE 1
#define DESTINATION_JOIN 2
#define DESTINATION_LEAVE 3
#define DESTINATION_ACK 4
#define DESTINATION_PULL 5
#define DESTINATION_TIMEOUT 6
#define DESTINATION_PREFETCH 7
#define DESTINATION_UNMARK 8
#define DESTINATION_SWEEP 9
#define DESTINATION_CLEAR 10
#define DESTINATION_ADD_PRODUCER 11
#define DESTINATION_REMOVE_PRODUCER 12
#define DESTINATION_DUPLICATE 13
#define DESTINATION_RELEASE_AUDITS 14
#define DESTINATION_RELEASE 15

/* ---- numbers in calls */

/* open: kind */
#define DESTINATION_QUEUE 0
#define DESTINATION_TOPIC 1

/* join: the selector that accepts every entry; 0 to 63 look at that bit of the entry's match word */
#define DESTINATION_NO_SELECTOR 64

/* join: flags */
#define DESTINATION_NO_LOCAL 1 /* no entries of the consumer's own connection */
#define DESTINATION_BROWSER 2

/* leave: last delivered is not known, so every entry that returns counts as delivered once more */
#define DESTINATION_LAST_UNKNOWN (-1)

/* ack: types, and what becomes of the entries that it names: those that were sent to the consumer from `first` to `last`, in the order
 * of sending; without `first`, or where it is not known, all up to `last`; without `last`, or where it is not known, none.
 * In a transaction they stay, are marked and make room (except with DELIVERED). 7 to 255 are taken too, and do nothing but that. */
#define DESTINATION_DELIVERED 0   /* have arrived: they stay, and make room */
#define DESTINATION_POISON 1      /* rejected: a persistent one becomes a dead letter, another counts as discarded */
#define DESTINATION_STANDARD 2    /* done: all up to `last`, whatever `first` says; they count as dequeued */
#define DESTINATION_REDELIVERED 3 /* they stay, and their redelivery rises by 1 */
#define DESTINATION_INDIVIDUAL 4  /* done: `last` alone; it counts as dequeued */
#define DESTINATION_UNMATCHED 5   /* as STANDARD */
#define DESTINATION_EXPIRED 6     /* gone: they count as expired */

/* ack: the type's word is the type (0 to 255) plus these */
#define DESTINATION_TRANSACTED 256
#define DESTINATION_HAS_FIRST 512 /* the word `first` is in use; else it is 0 */
#define DESTINATION_HAS_LAST 1024 /* the word `last` is in use; else it is 0 */
#define DESTINATION_CAUSE 2048    /* the client gives a cause; a dead letter says so */

/* event: kinds */
#define DESTINATION_DEAD_LETTER 1 /* an entry was rejected: 1, sequence, redelivery, cause (1 the client's, 0 default), 0, 0 */
#define DESTINATION_MESSAGE 2     /* send an entry to a consumer: 2, connection, session, value, sequence, redelivery */
#define DESTINATION_NULL 3        /* send a consumer an empty message: 3, connection, session, value, 0, 0 */

/* block: where it is held, or how it left. On a queue none is discarded. */
#define DESTINATION_PLACE_WAITING 0
#define DESTINATION_PLACE_IN_FLIGHT 1     /* at one consumer that is no browser */
#define DESTINATION_PLACE_RESERVED 2      /* for a consumer that left with a transaction */
#define DESTINATION_PLACE_DEQUEUED 3      /* by an acknowledgement, but POISON and EXPIRED */
#define DESTINATION_PLACE_EXPIRED 4       /* by the clock less the allowance, or by an EXPIRED acknowledgement */
#define DESTINATION_PLACE_DISCARDED 5
#define DESTINATION_PLACE_DEAD_LETTERED 6 /* by a POISON acknowledgement, persistent or not */
#define DESTINATION_PLACE_CLEARED 7       /* by a clear */

/* head: the words that say how many calls are left, the allowance, and the share */
#define DESTINATION_HEAD_CALL_LIMIT 2
#define DESTINATION_HEAD_CALLS_USED 3
#define DESTINATION_HEAD_ALLOWANCE 8345
#define DESTINATION_HEAD_SHARE 8346

/* ---- structs */

/* A state and an event list. 137,992 bytes: better not on a small stack. */
struct destination {
    uint64_t head[DESTINATION_HEAD_WORDS];
    uint64_t subs[DESTINATION_CONSUMERS][DESTINATION_SUB_WORDS];
    uint64_t rows[DESTINATION_ROWS][DESTINATION_ROW_WORDS];
    uint64_t events[DESTINATION_EVENTS][DESTINATION_EVENT_WORDS];
};

/* A call: its code and its eight words, the unused ones 0. Signed numbers are two's complement: (uint64_t)number. 72 bytes.
 * `id` stands for three words: connection, session, value.
 *
 *      0 open              kind, topic limit, call limit, clock, allowance, share
 *      1 enqueue           sequence, expiration, persistent (0 or 1), producer's connection, match word, redelivery, clock, size
 *      2 join              id, prefetch, selector, flags, clock
 *      3 leave             id, last delivered, clock
 *      4 ack               id, type's word, first, last, clock
 *      5 pull              id, timeout, clock
 *      6 timeout           id, generation
 *      7 prefetch          id, prefetch, clock
 *      8 unmark            id
 *      9 sweep             clock, maximum
 *     10 clear
 *     11 add producer      id
 *     12 remove producer   id, clock
 *     13 duplicate         id, number
 *     14 release audits    connection
 *     15 release           id, clock
 */
struct destination_request {
    uint64_t code;
    uint64_t words[8];
};

/* What a call gives. 24 bytes. */
struct destination_outcome {
    uint64_t refusal; /* DESTINATION_ACCEPTED, or why nothing has happened */
    uint64_t answer;  /* see the calls below */
    size_t events;    /* how many events stand in the list, at most 545; what stands after them is as it was */
};

/* A block of a queue: an entry that it accepted since its latest open. 24 bytes. */
struct destination_block {
    uint64_t sequence;
    uint64_t place;      /* DESTINATION_PLACE_.. */
    uint64_t persistent; /* 0 or 1 */
};

/* What a call gives with the account of a queue's blocks. 40 bytes. */
struct destination_noted {
    uint64_t refusal;
    uint64_t answer;
    size_t events;
    size_t held; /* how many blocks the destination holds: they stand first in the list; beside a refusal as many as were said to be in use */
    size_t left; /* how many left in this call: they stand first in their list; 0 beside a refusal */
};

/* What many calls give together. 16 bytes. */
struct destination_done {
    size_t calls;  /* how many were done, and so how many outcomes were written */
    size_t events; /* how many events stand in the list, those of all calls one after another */
};

/* What a query gives. Beside a refusal the other numbers are 0. 16 bytes. */
struct destination_asked {
    uint64_t refusal;
    uint64_t answer; /* 1 and 0 for yes and no */
};

/* The five counters since open: how many entries, or copies of them. 48 bytes. */
struct destination_counted {
    uint64_t refusal;
    uint64_t enqueued;   /* came in */
    uint64_t dequeued;   /* acknowledged as done */
    uint64_t expired;    /* were found to be expired, or acknowledged as such */
    uint64_t discarded;  /* over a topic's limit and not expired, or rejected and not persistent; or by destination_add_discarded */
    uint64_t dispatched; /* were sent */
};

/* What a page gives. 24 bytes. */
struct destination_paged {
    uint64_t refusal;
    uint64_t total; /* how many entries wait on the queue */
    size_t count;   /* how many lines were written, from the first on; what stands after them is as it was */
};

/* A line of a page. 24 bytes, the last 4 of them padding. */
struct destination_page_line {
    uint64_t sequence;
    int64_t expiration;
    int32_t redelivery;
};

/* What an outlook asks: two readings of the clock (0 to 2^62) and two times, which are compared with expirations. 32 bytes. */
struct destination_span {
    uint64_t earlier, later; /* the true clock lies between them, ends included */
    int64_t from, to;        /* any; from above to lists nothing */
};

/* What it answers. 48 bytes. Beside a refusal all else is 0. */
struct destination_outlooked {
    uint64_t refusal;
    uint64_t sure;    /* of what waits on the queue: expired at the earlier reading */
    uint64_t perhaps; /* expired only at the later one */
    uint64_t alive;   /* expired at neither */
    uint64_t next;    /* the sequence number of the next alive one to expire, the lowest on a tie; 0 for none */
    size_t count;     /* lines written */
};

/* A consumer or a producer: the host's numbers for its texts, one to one. */
struct destination_id {
    uint64_t connection;
    int64_t session;
    int64_t value;
};

/* An entry, as it is enqueued. */
struct destination_entry {
    uint64_t sequence;   /* 1 to 2^63 - 1; lower ones go first */
    int64_t expiration;  /* the clock from which on it is expired, later by the destination's allowance; 0 or less: never */
    bool persistent;     /* a rejected entry becomes a dead letter only if it is */
    uint64_t producer;   /* its producer's connection; 0: none */
    uint64_t match_word; /* bit s says whether selector s accepts it */
    int32_t redelivery;  /* how often it was delivered in vain */
    uint32_t size;       /* its bytes, for destination_bytes_held alone */
};

/* A consumer, as it joins. */
struct destination_consumer {
    struct destination_id id;
    int32_t prefetch;  /* how many entries it may have unacknowledged; 0 or less: it pulls */
    uint64_t selector; /* 0 to 63, or DESTINATION_NO_SELECTOR */
    bool no_local;     /* takes no entries of its own connection */
    bool browser;      /* looks at what waits, and takes nothing away */
};

/* An acknowledgement of entries that were sent, by sequence number. */
struct destination_acknowledgement {
    uint8_t type; /* DESTINATION_DELIVERED to DESTINATION_EXPIRED */
    bool transacted;
    bool has_first, has_last;
    bool cause;
    int64_t first, last; /* not looked at where has_first, has_last are false */
};

/* ---- the library's functions */

/* The limits above, from the library itself. */
size_t destination_head_words(void);
size_t destination_consumers(void);
size_t destination_rows(void);
size_t destination_events(void);
size_t destination_page_lines(void);
size_t destination_outlook_lines(void);
size_t destination_held_blocks(void);
size_t destination_left_blocks(void);

/* Does the call. */
struct destination_outcome destination_call(uint64_t *head, size_t head_words,
                                            uint64_t (*subs)[DESTINATION_SUB_WORDS], size_t subs_length,
                                            uint64_t (*rows)[DESTINATION_ROW_WORDS], size_t rows_length,
                                            uint64_t (*events)[DESTINATION_EVENT_WORDS], size_t events_length,
                                            struct destination_request request);

/* Does many calls with one test of the state: from the first on, each as destination_call would do it on what is left of the event list. The
 * outcomes and events of all stand one after another; what stands past them is as it was. It ends with the last request, with the last
 * place for an outcome, or where fewer than 545 places for events are left: so lend a list that is longer by what the calls may send, and
 * go on from requests + calls. Where a state array is short or the state is not sound none is done; destination_call then says why. So on a
 * state that was never opened a batch that begins with an open does nothing: make the first open with destination_call. */
struct destination_done destination_calls(uint64_t *head, size_t head_words,
                                          uint64_t (*subs)[DESTINATION_SUB_WORDS], size_t subs_length,
                                          uint64_t (*rows)[DESTINATION_ROW_WORDS], size_t rows_length,
                                          uint64_t (*events)[DESTINATION_EVENT_WORDS], size_t events_length,
                                          const struct destination_request *requests, size_t requests_length,
                                          struct destination_outcome *outcomes, size_t outcomes_length);

/* Does the call as destination_call does, and keeps the account of a queue's blocks. The host lends two lists: `held`, of which the first
 * `in_use` are the blocks that the destination holds, as the call before left them (none before the open), and `left`. After an accepted
 * call the one has the blocks that it holds now, waiting ones first, then reserved ones, then those in flight; the other those that left
 * in this call, each with the place where it went. What stands after them is as it was, and beside a refusal so are both lists. An open
 * begins a new account; a topic has none. So each block of a run is told once as it leaves, and what is held at the end is in `held`:
 * the number of all is the enqueued counter. A number may come again once it has left, and is then another block. */
struct destination_noted destination_call_noted(uint64_t *head, size_t head_words,
                                                uint64_t (*subs)[DESTINATION_SUB_WORDS], size_t subs_length,
                                                uint64_t (*rows)[DESTINATION_ROW_WORDS], size_t rows_length,
                                                uint64_t (*events)[DESTINATION_EVENT_WORDS], size_t events_length,
                                                struct destination_block *held, size_t held_length, size_t in_use,
                                                struct destination_block *left, size_t left_length,
                                                struct destination_request request);

/* Two changing calls that have no code: the host found before storing an entry that it must be discarded, or that it has expired. Each counts
 * one, uses a call and sends nothing. Refusals 1, 2, 9. */
struct destination_outcome destination_add_discarded(uint64_t *head, size_t head_words,
                                                     uint64_t (*subs)[DESTINATION_SUB_WORDS], size_t subs_length,
                                                     uint64_t (*rows)[DESTINATION_ROW_WORDS], size_t rows_length,
                                                     uint64_t (*events)[DESTINATION_EVENT_WORDS], size_t events_length);
struct destination_outcome destination_expired_before_storing(uint64_t *head, size_t head_words,
                                                              uint64_t (*subs)[DESTINATION_SUB_WORDS], size_t subs_length,
                                                              uint64_t (*rows)[DESTINATION_ROW_WORDS], size_t rows_length,
                                                              uint64_t (*events)[DESTINATION_EVENT_WORDS], size_t events_length);

/* Queries: they change nothing and use no call. Refusals 1, 2; 3 for a clock above 2^62. */

/* 1 for a queue, 0 for a topic. */
struct destination_asked destination_is_queue(const uint64_t *head, size_t head_words,
                                              const uint64_t (*subs)[DESTINATION_SUB_WORDS], size_t subs_length,
                                              const uint64_t (*rows)[DESTINATION_ROW_WORDS], size_t rows_length);

/* Whether consumers are present. */
struct destination_asked destination_has_consumers(const uint64_t *head, size_t head_words,
                                                   const uint64_t (*subs)[DESTINATION_SUB_WORDS], size_t subs_length,
                                                   const uint64_t (*rows)[DESTINATION_ROW_WORDS], size_t rows_length);

/* Whether an entry that waits, on the queue or for a topic's consumer, has an expiration. */
struct destination_asked destination_has_expiring(const uint64_t *head, size_t head_words,
                                                  const uint64_t (*subs)[DESTINATION_SUB_WORDS], size_t subs_length,
                                                  const uint64_t (*rows)[DESTINATION_ROW_WORDS], size_t rows_length);

/* How many entries wait or are in flight, of all consumers; what browsers are yet to see and what is reserved is not counted. */
struct destination_asked destination_message_count(const uint64_t *head, size_t head_words,
                                                   const uint64_t (*subs)[DESTINATION_SUB_WORDS], size_t subs_length,
                                                   const uint64_t (*rows)[DESTINATION_ROW_WORDS], size_t rows_length);

/* The bytes held: the sizes of the entries that have a copy in any place (waiting, in flight, reserved, yet to be seen by a browser), each
 * counted once however many copies it has, from its enqueue until its last copy goes. At most 512 times 4,294,967,295. */
struct destination_asked destination_bytes_held(const uint64_t *head, size_t head_words,
                                                const uint64_t (*subs)[DESTINATION_SUB_WORDS], size_t subs_length,
                                                const uint64_t (*rows)[DESTINATION_ROW_WORDS], size_t rows_length);

/* Whether nothing waits, nobody is there, consumer or producer, and it has been so for at least so many seconds. */
struct destination_asked destination_idle_for(const uint64_t *head, size_t head_words,
                                              const uint64_t (*subs)[DESTINATION_SUB_WORDS], size_t subs_length,
                                              const uint64_t (*rows)[DESTINATION_ROW_WORDS], size_t rows_length,
                                              uint64_t clock, uint64_t seconds);

/* The sequence number of the entry that waits at this place, counted from 0; 0 if there is none. */
struct destination_asked destination_seq_at(const uint64_t *head, size_t head_words,
                                            const uint64_t (*subs)[DESTINATION_SUB_WORDS], size_t subs_length,
                                            const uint64_t (*rows)[DESTINATION_ROW_WORDS], size_t rows_length,
                                            uint64_t index);

/* The counters. */
struct destination_counted destination_counters(const uint64_t *head, size_t head_words,
                                                const uint64_t (*subs)[DESTINATION_SUB_WORDS], size_t subs_length,
                                                const uint64_t (*rows)[DESTINATION_ROW_WORDS], size_t rows_length);

/* Lists entries that wait on a queue, by rising sequence number: at most limit and at most 50 of them, from the place `offset` on. */
struct destination_paged destination_page(const uint64_t *head, size_t head_words,
                                          const uint64_t (*subs)[DESTINATION_SUB_WORDS], size_t subs_length,
                                          const uint64_t (*rows)[DESTINATION_ROW_WORDS], size_t rows_length,
                                          struct destination_page_line *lines, size_t lines_length,
                                          uint64_t offset, uint64_t limit);

/* When the clock is only known to lie between two readings: how many of the entries that wait on the queue have surely expired, perhaps, or are
 * alive, the allowance included, and which expires next. Lists those whose expiration is above 0 and from `from` to `to`, both included and
 * without the allowance, by expiration and then sequence number; lines past them stay as they were. A sweep with maximum 512 whose clock lies between
 * the readings, ends included, and that is the next call accepted, removes of these entries the sure ones and none but sure and perhaps. On a topic all is 0.
 * Refusals 1, 2; 3 for a reading above 2^62; then 17. */
struct destination_outlooked destination_outlook(const uint64_t *head, size_t head_words,
                                                 const uint64_t (*subs)[DESTINATION_SUB_WORDS], size_t subs_length,
                                                 const uint64_t (*rows)[DESTINATION_ROW_WORDS], size_t rows_length,
                                                 struct destination_page_line *lines, size_t lines_length,
                                                 struct destination_span span);

/* ---- requests: the words of each call, filled in */

static inline struct destination_request destination_request_id(uint64_t code, struct destination_id id, uint64_t word3,
                                                                uint64_t word4)
{
    struct destination_request r = {code, {id.connection, (uint64_t)id.session, (uint64_t)id.value, word3, word4, 0, 0, 0}};
    return r;
}

static inline struct destination_request destination_request_open(uint64_t kind, uint64_t topic_limit, uint64_t call_limit,
                                                                  uint64_t clock, uint64_t allowance, uint64_t share)
{
    struct destination_request r = {DESTINATION_OPEN, {kind, topic_limit, call_limit, clock, allowance, share, 0, 0}};
    return r;
}

static inline struct destination_request destination_request_enqueue(struct destination_entry e, uint64_t clock)
{
    struct destination_request r = {DESTINATION_ENQUEUE,
                                    {e.sequence, (uint64_t)e.expiration, e.persistent, e.producer, e.match_word,
                                     (uint64_t)(int64_t)e.redelivery, clock, e.size}};
    return r;
}

static inline struct destination_request destination_request_join(struct destination_consumer c, uint64_t clock)
{
    struct destination_request r = destination_request_id(DESTINATION_JOIN, c.id, (uint64_t)(int64_t)c.prefetch, c.selector);
    r.words[5] = (c.no_local ? DESTINATION_NO_LOCAL : 0u) + (c.browser ? DESTINATION_BROWSER : 0u);
    r.words[6] = clock;
    return r;
}

static inline struct destination_request destination_request_leave(struct destination_id id, int64_t last_delivered,
                                                                   uint64_t clock)
{
    return destination_request_id(DESTINATION_LEAVE, id, (uint64_t)last_delivered, clock);
}

static inline struct destination_request destination_request_ack(struct destination_id id,
                                                                 struct destination_acknowledgement a, uint64_t clock)
{
    uint64_t flags = (a.transacted ? DESTINATION_TRANSACTED : 0u) + (a.has_first ? DESTINATION_HAS_FIRST : 0u) +
                     (a.has_last ? DESTINATION_HAS_LAST : 0u) + (a.cause ? DESTINATION_CAUSE : 0u);
    struct destination_request r = destination_request_id(DESTINATION_ACK, id, a.type + flags, 0);
    r.words[4] = a.has_first ? (uint64_t)a.first : 0;
    r.words[5] = a.has_last ? (uint64_t)a.last : 0;
    r.words[6] = clock;
    return r;
}

static inline struct destination_request destination_request_pull(struct destination_id id, int64_t timeout, uint64_t clock)
{
    return destination_request_id(DESTINATION_PULL, id, (uint64_t)timeout, clock);
}

static inline struct destination_request destination_request_timeout(struct destination_id id, uint64_t generation)
{
    return destination_request_id(DESTINATION_TIMEOUT, id, generation, 0);
}

static inline struct destination_request destination_request_prefetch(struct destination_id id, int32_t prefetch,
                                                                      uint64_t clock)
{
    return destination_request_id(DESTINATION_PREFETCH, id, (uint64_t)(int64_t)prefetch, clock);
}

static inline struct destination_request destination_request_unmark(struct destination_id id)
{
    return destination_request_id(DESTINATION_UNMARK, id, 0, 0);
}

static inline struct destination_request destination_request_release(struct destination_id id, uint64_t clock)
{
    return destination_request_id(DESTINATION_RELEASE, id, clock, 0);
}

static inline struct destination_request destination_request_sweep(uint64_t clock, uint64_t maximum)
{
    struct destination_request r = {DESTINATION_SWEEP, {clock, maximum, 0, 0, 0, 0, 0, 0}};
    return r;
}

static inline struct destination_request destination_request_clear(void)
{
    struct destination_request r = {DESTINATION_CLEAR, {0, 0, 0, 0, 0, 0, 0, 0}};
    return r;
}

static inline struct destination_request destination_request_add_producer(struct destination_id id)
{
    return destination_request_id(DESTINATION_ADD_PRODUCER, id, 0, 0);
}

static inline struct destination_request destination_request_remove_producer(struct destination_id id, uint64_t clock)
{
    return destination_request_id(DESTINATION_REMOVE_PRODUCER, id, clock, 0);
}

static inline struct destination_request destination_request_duplicate(struct destination_id id, int64_t number)
{
    return destination_request_id(DESTINATION_DUPLICATE, id, (uint64_t)number, 0);
}

static inline struct destination_request destination_request_release_audits(uint64_t connection)
{
    struct destination_request r = {DESTINATION_RELEASE_AUDITS, {connection, 0, 0, 0, 0, 0, 0, 0}};
    return r;
}

/* ---- the calls on a struct destination. Where nothing else is said the answer is 0. */

/* Any request. */
static inline struct destination_outcome destination_do(struct destination *d, struct destination_request request)
{
    return destination_call(d->head, DESTINATION_HEAD_WORDS, d->subs, DESTINATION_CONSUMERS, d->rows, DESTINATION_ROWS,
                            d->events, DESTINATION_EVENTS, request);
}

/* Starts an empty queue or topic, whatever d held. call_limit: how many calls it will accept. allowance: by so much later than its
 * expiration an entry expires; 0 for none. share: how many rows the entries of one producer connection may take; 0 for all. */
static inline struct destination_outcome destination_open(struct destination *d, uint64_t kind, uint64_t topic_limit,
                                                          uint64_t call_limit, uint64_t clock, uint64_t allowance, uint64_t share)
{
    return destination_do(d, destination_request_open(kind, topic_limit, call_limit, clock, allowance, share));
}

/* Stores an entry, and sends what can be sent. */
static inline struct destination_outcome destination_enqueue(struct destination *d, struct destination_entry entry,
                                                             uint64_t clock)
{
    return destination_do(d, destination_request_enqueue(entry, clock));
}

/* A consumer comes, and is sent what it may have. */
static inline struct destination_outcome destination_join(struct destination *d, struct destination_consumer consumer,
                                                          uint64_t clock)
{
    return destination_do(d, destination_request_join(consumer, clock));
}

/* A consumer goes. Its entries return to a queue; those in a transaction stay reserved. last_delivered: the last sequence number that has
 * reached it, or DESTINATION_LAST_UNKNOWN. Answer: 1 if it was present, else 0. */
static inline struct destination_outcome destination_leave(struct destination *d, struct destination_id id,
                                                           int64_t last_delivered, uint64_t clock)
{
    return destination_do(d, destination_request_leave(id, last_delivered, clock));
}

/* A consumer acknowledges, present or gone (then what is reserved for it). */
static inline struct destination_outcome destination_ack(struct destination *d, struct destination_id id,
                                                         struct destination_acknowledgement a, uint64_t clock)
{
    return destination_do(d, destination_request_ack(id, a, clock));
}

/* A consumer with prefetch 0 asks for one entry. With nothing waiting: timeout below 0 sends a null and answers 0; 0 waits and answers 0;
 * above 0 waits and answers the pull's generation, for destination_timeout when the host's timer has run out. With a prefetch above 0
 * nothing happens. */
static inline struct destination_outcome destination_pull(struct destination *d, struct destination_id id, int64_t timeout,
                                                          uint64_t clock)
{
    return destination_do(d, destination_request_pull(id, timeout, clock));
}

/* The timer of a pull has run out: a null, if that pull still waits. */
static inline struct destination_outcome destination_timeout(struct destination *d, struct destination_id id,
                                                             uint64_t generation)
{
    return destination_do(d, destination_request_timeout(id, generation));
}

/* A consumer's prefetch changes. */
static inline struct destination_outcome destination_prefetch(struct destination *d, struct destination_id id,
                                                              int32_t prefetch, uint64_t clock)
{
    return destination_do(d, destination_request_prefetch(id, prefetch, clock));
}

/* A transaction of a consumer is rolled back, first half: the marks of what is in flight to it go. Nothing is sent. */
static inline struct destination_outcome destination_unmark(struct destination *d, struct destination_id id)
{
    return destination_do(d, destination_request_unmark(id));
}

/* The second half: what is reserved for the consumer, which may have left, returns to the queue. */
static inline struct destination_outcome destination_release(struct destination *d, struct destination_id id, uint64_t clock)
{
    return destination_do(d, destination_request_release(id, clock));
}

/* Removes expired entries that wait, at most so many. Answer: how many. */
static inline struct destination_outcome destination_sweep(struct destination *d, uint64_t clock, uint64_t maximum)
{
    return destination_do(d, destination_request_sweep(clock, maximum));
}

/* Removes all entries. Answer: how many were counted. */
static inline struct destination_outcome destination_clear(struct destination *d)
{
    return destination_do(d, destination_request_clear());
}

static inline struct destination_outcome destination_add_producer(struct destination *d, struct destination_id id)
{
    return destination_do(d, destination_request_add_producer(id));
}

static inline struct destination_outcome destination_remove_producer(struct destination *d, struct destination_id id,
                                                                     uint64_t clock)
{
    return destination_do(d, destination_request_remove_producer(id, clock));
}

/* Whether a producer has sent this number before, among its last 1,024. Answer: 1 for a duplicate; 0 for a new one, which is now remembered.
 * Connection 0 is no producer: the answer is 0, and nothing is remembered. */
static inline struct destination_outcome destination_duplicate(struct destination *d, struct destination_id id,
                                                               int64_t number)
{
    return destination_do(d, destination_request_duplicate(id, number));
}

/* Forgets the numbers of all producers of a connection. */
static inline struct destination_outcome destination_release_audits(struct destination *d, uint64_t connection)
{
    return destination_do(d, destination_request_release_audits(connection));
}

/* ---- the other functions on a struct destination */

/* With an event list of its own, not d->events, as that one is full after the first event. */
static inline struct destination_done destination_calls_of(struct destination *d,
                                                           uint64_t (*events)[DESTINATION_EVENT_WORDS], size_t events_length,
                                                           const struct destination_request *requests, size_t requests_length,
                                                           struct destination_outcome *outcomes, size_t outcomes_length)
{
    return destination_calls(d->head, DESTINATION_HEAD_WORDS, d->subs, DESTINATION_CONSUMERS, d->rows, DESTINATION_ROWS, events,
                             events_length, requests, requests_length, outcomes, outcomes_length);
}

/* held and left: lists of DESTINATION_HELD_BLOCKS and DESTINATION_LEFT_BLOCKS; in_use: what the call before gave as held, 0 before the open. */
static inline struct destination_noted destination_call_noted_of(struct destination *d, struct destination_block *held, size_t in_use,
                                                                 struct destination_block *left, struct destination_request request)
{
    return destination_call_noted(d->head, DESTINATION_HEAD_WORDS, d->subs, DESTINATION_CONSUMERS, d->rows, DESTINATION_ROWS, d->events,
                                  DESTINATION_EVENTS, held, DESTINATION_HELD_BLOCKS, in_use, left, DESTINATION_LEFT_BLOCKS, request);
}

static inline struct destination_outcome destination_add_discarded_of(struct destination *d)
{
    return destination_add_discarded(d->head, DESTINATION_HEAD_WORDS, d->subs, DESTINATION_CONSUMERS, d->rows, DESTINATION_ROWS,
                                     d->events, DESTINATION_EVENTS);
}

static inline struct destination_outcome destination_expired_before_storing_of(struct destination *d)
{
    return destination_expired_before_storing(d->head, DESTINATION_HEAD_WORDS, d->subs, DESTINATION_CONSUMERS, d->rows, DESTINATION_ROWS,
                                              d->events, DESTINATION_EVENTS);
}

static inline struct destination_asked destination_is_queue_of(const struct destination *d)
{
    return destination_is_queue(d->head, DESTINATION_HEAD_WORDS, d->subs, DESTINATION_CONSUMERS, d->rows, DESTINATION_ROWS);
}

static inline struct destination_asked destination_has_consumers_of(const struct destination *d)
{
    return destination_has_consumers(d->head, DESTINATION_HEAD_WORDS, d->subs, DESTINATION_CONSUMERS, d->rows, DESTINATION_ROWS);
}

static inline struct destination_asked destination_has_expiring_of(const struct destination *d)
{
    return destination_has_expiring(d->head, DESTINATION_HEAD_WORDS, d->subs, DESTINATION_CONSUMERS, d->rows, DESTINATION_ROWS);
}

static inline struct destination_asked destination_message_count_of(const struct destination *d)
{
    return destination_message_count(d->head, DESTINATION_HEAD_WORDS, d->subs, DESTINATION_CONSUMERS, d->rows, DESTINATION_ROWS);
}

static inline struct destination_asked destination_bytes_held_of(const struct destination *d)
{
    return destination_bytes_held(d->head, DESTINATION_HEAD_WORDS, d->subs, DESTINATION_CONSUMERS, d->rows, DESTINATION_ROWS);
}

static inline struct destination_asked destination_idle_for_of(const struct destination *d, uint64_t clock, uint64_t seconds)
{
    return destination_idle_for(d->head, DESTINATION_HEAD_WORDS, d->subs, DESTINATION_CONSUMERS, d->rows, DESTINATION_ROWS,
                                clock, seconds);
}

static inline struct destination_asked destination_seq_at_of(const struct destination *d, uint64_t index)
{
    return destination_seq_at(d->head, DESTINATION_HEAD_WORDS, d->subs, DESTINATION_CONSUMERS, d->rows, DESTINATION_ROWS,
                              index);
}

static inline struct destination_counted destination_counters_of(const struct destination *d)
{
    return destination_counters(d->head, DESTINATION_HEAD_WORDS, d->subs, DESTINATION_CONSUMERS, d->rows, DESTINATION_ROWS);
}

static inline struct destination_paged destination_page_of(const struct destination *d, struct destination_page_line *lines,
                                                          size_t lines_length, uint64_t offset, uint64_t limit)
{
    return destination_page(d->head, DESTINATION_HEAD_WORDS, d->subs, DESTINATION_CONSUMERS, d->rows, DESTINATION_ROWS,
                            lines, lines_length, offset, limit);
}

static inline struct destination_outlooked destination_outlook_of(const struct destination *d, struct destination_page_line *lines,
                                                                  size_t lines_length, struct destination_span span)
{
    return destination_outlook(d->head, DESTINATION_HEAD_WORDS, d->subs, DESTINATION_CONSUMERS, d->rows, DESTINATION_ROWS,
                               lines, lines_length, span);
}

/* ---- reading an event: destination_event_..(d->events[i]) for i below the outcome's events */

/* A word as a signed number. */
static inline int64_t destination_signed(uint64_t word)
{
    return word <= (uint64_t)INT64_MAX ? (int64_t)word : -1 - (int64_t)(UINT64_MAX - word);
}

/* DESTINATION_DEAD_LETTER, DESTINATION_MESSAGE or DESTINATION_NULL. */
static inline uint64_t destination_event_kind(const uint64_t event[DESTINATION_EVENT_WORDS])
{
    return event[0];
}

/* The entry, of a dead letter or a message. */
static inline uint64_t destination_event_sequence(const uint64_t event[DESTINATION_EVENT_WORDS])
{
    return event[0] == DESTINATION_DEAD_LETTER ? event[1] : event[4];
}

static inline int32_t destination_event_redelivery(const uint64_t event[DESTINATION_EVENT_WORDS])
{
    return (int32_t)destination_signed(event[0] == DESTINATION_DEAD_LETTER ? event[2] : event[5]);
}

/* Whether the client gave the cause of a dead letter. */
static inline bool destination_event_cause(const uint64_t event[DESTINATION_EVENT_WORDS])
{
    return event[0] == DESTINATION_DEAD_LETTER && event[3] != 0;
}

/* The consumer, of a message or a null. */
static inline struct destination_id destination_event_consumer(const uint64_t event[DESTINATION_EVENT_WORDS])
{
    struct destination_id id = {event[1], destination_signed(event[2]), destination_signed(event[3])};
    return id;
}

#ifdef __cplusplus
}
#endif

#endif
