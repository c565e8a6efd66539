/* A station: up to eight destinations in one state, numbered 0 to 7, whose rejected entries go somewhere.
 *
 * Each destination is a queue or a topic as destination.h describes it, and names at its open a dead-letter destination, 0 to 7, or
 * STATION_NONE. A persistent entry that a POISON acknowledgement rejects is enqueued there: with a new sequence number, which the station gives, at the
 * acknowledgement's clock, and with its other fields as they were. Where that destination refuses it, it goes on to the one that this one names, eight hops at
 * most, and is then lost; so it is where none is named, and where the named one is not open. station_call_told says of each letter which number it had, which it
 * got, and where it is stored.
 *
 * Link with libstation.a (tools/build station; x86-64), and for the queries of one destination with libdestination.a too. This header needs destination.h
 * beside it: requests, identifiers, entries, outcomes and refusals are that one's, and what it says of memory, alignment, overlap and signed numbers
 * holds here too. docs/LIBRARY.md has a section on stations, examples/station programs in C and Rust.
 *
 * The buffers. A state is four arrays, and beside them there is a list for the events of one call. The first three are those of a destination
 * eight times over: destination k has the k-th eighth of each.
 *
 *     heads   66,776 words            8 x 8,347: the destinations' own numbers
 *     subs       256 of 16 words      8 x 32 consumers
 *     rows     4,096 of 10 words      8 x 512 rows
 *     own         20 words            which are open, the dead-letter names, the next number, how many letters were lost; two not in use
 *     events   4,872 of  6 words      what the call has sent, from the first on
 *
 * `struct station` has all five. Longer arrays will do; what stands past these sizes is never read or written. A shorter one gets refusal 1.
 * The state starts with station_start, whatever the arrays held before; then none is open. It may be copied, stored and lent again. What
 * comes back is tested: where the own words are out of range, or an open destination is not sound, every call but start and open gets refusal 2.
 * Nothing is asked of the part of a destination that is not open.
 *
 * A REFUSED CALL HAS CHANGED NOTHING: state and events are as they were, and so is a list of letters; the answer is 0 and the number of events is 0. An accepted one
 * changes the part of its destination and of those where a letter was stored, and no word of the others.
 *
 * A call takes at most 128 kB of stack (STATION_STACK_..; examples/station/stack.c measures it): the letters of one call stand there.
 */
#ifndef STATION_H
#define STATION_H

#include "destination.h"

#ifdef __cplusplus
extern "C" {
#endif

/* ---- limits */

#define STATION_DESTINATIONS 8
#define STATION_HEAD_WORDS 66776 /* station_head_words() says the same */
#define STATION_CONSUMERS 256    /* station_consumers() */
#define STATION_ROWS 4096        /* station_rows() */
#define STATION_OWN_WORDS 20     /* station_own_words() */
#define STATION_EVENTS 4872      /* station_events() */
#define STATION_LETTERS 512      /* a call has at most so many dead letters: as many as a destination has rows */

/* bytes of stack that a function takes at most, as measured: a call, or many; the query and a start */
#define STATION_STACK_CALL 131072
#define STATION_STACK_NUMBERS 12288

/* open: no dead-letter destination is named */
#define STATION_NONE 8

/* a told letter: it is stored nowhere */
#define STATION_LOST 8

#define STATION_HOPS 8                                   /* a letter makes at most so many */
#define STATION_NUMBERS_END (UINT64_C(1) << 63)          /* the next number where none is left */
#define STATION_LOST_MOST (UINT64_MAX >> 1)              /* the count of lost letters stops here */

/* own: the words of destination k's open mark (0 or 1) and name, of the next number and of the lost count */
#define STATION_OWN_OPEN(k) (k)
#define STATION_OWN_NAME(k) (8 + (k))
#define STATION_OWN_NEXT 16
#define STATION_OWN_LOST 17

/* ---- refusals: those of destination.h, and after 1 and before 2 this one. On a station 1 is for its own arrays, 2 for an open destination or own words that are
 * not sound, 3 also for an enqueue that carries a sequence number or finds none left, and for a name above 8. */

#define STATION_NOT_OPEN 10 /* the number is above 7 or, open apart, that destination is not open */

/* ---- the code of a request of station_calls: a code below 256, and the number of its destination, which is below 2^56 */

#define STATION_CODE(code, number) ((code) + 256 * (uint64_t)(number))

/* ---- structs */

/* A state and an event list. 1,128,672 bytes: static or from malloc, not on a stack. */
struct station {
    uint64_t heads[STATION_HEAD_WORDS];
    uint64_t subs[STATION_CONSUMERS][DESTINATION_SUB_WORDS];
    uint64_t rows[STATION_ROWS][DESTINATION_ROW_WORDS];
    uint64_t own[STATION_OWN_WORDS];
    uint64_t events[STATION_EVENTS][DESTINATION_EVENT_WORDS];
};

/* The station's own numbers. Beside a refusal the others are 0. 24 bytes. */
struct station_numbered {
    uint64_t refusal; /* 1 an array is short, 2 the station is not sound */
    uint64_t next;    /* the sequence number that is given next, 1 on; STATION_NUMBERS_END: none is left */
    uint64_t lost;    /* how many letters were lost since the start */
};

/* What became of a dead letter. 24 bytes. */
struct station_told {
    uint64_t had;         /* its sequence number at the destination that rejected it */
    uint64_t got;         /* the one that the station gave it, lost or not; 0: none was left */
    uint64_t destination; /* where it is stored, 0 to 7, or STATION_LOST */
};

/* What a call gives with what became of its dead letters. 32 bytes. */
struct station_told_outcome {
    uint64_t refusal;
    uint64_t answer;
    size_t events;
    size_t letters; /* how many dead letters there are, at most 512, also where the list is shorter; 0 beside a refusal */
};

/* The part of one destination, for the queries of destination.h: destination_counters(STATION_PART(p)) */
struct station_part {
    const uint64_t *head;
    const uint64_t (*subs)[DESTINATION_SUB_WORDS];
    const uint64_t (*rows)[DESTINATION_ROW_WORDS];
};

#define STATION_PART(p) (p).head, DESTINATION_HEAD_WORDS, (p).subs, DESTINATION_CONSUMERS, (p).rows, DESTINATION_ROWS

/* ---- the library's functions */

/* The limits above, from the library itself. */
size_t station_head_words(void);
size_t station_consumers(void);
size_t station_rows(void);
size_t station_own_words(void);
size_t station_events(void);

/* Starts a station, whatever the arrays hold: none is open, the first number is 1, none is lost. It writes own words 0 to 17 alone. The refusal: 0, or 1
 * where an array is short. */
uint64_t station_start(const uint64_t *heads, size_t heads_words,
                       const uint64_t (*subs)[DESTINATION_SUB_WORDS], size_t subs_length,
                       const uint64_t (*rows)[DESTINATION_ROW_WORDS], size_t rows_length,
                       uint64_t *own, size_t own_words,
                       const uint64_t (*events)[DESTINATION_EVENT_WORDS], size_t events_length);

/* Does a call of destination `number`, by the codes and words of struct destination_request, with two differences. An open has a seventh word, the name of
 * its dead-letter destination, 0 to 8. An enqueue's sequence number is 0: the station gives it the next one, where it is accepted.
 * The acknowledgement's own events stand first, then letter after letter what the destination sends where it was stored. */
struct destination_outcome station_call(uint64_t *heads, size_t heads_words,
                                        uint64_t (*subs)[DESTINATION_SUB_WORDS], size_t subs_length,
                                        uint64_t (*rows)[DESTINATION_ROW_WORDS], size_t rows_length,
                                        uint64_t *own, size_t own_words,
                                        uint64_t (*events)[DESTINATION_EVENT_WORDS], size_t events_length,
                                        uint64_t number, struct destination_request request);

/* Does the call as station_call does, and says what became of its dead letters: `told` gets a row for each, in the order of the call's dead-letter events and as far as the list
 * goes. It may have any length; STATION_LETTERS rows are always enough. What stands past the rows is as it was; beside a refusal, and of a call that rejects nothing,
 * all of it is. Stored is a letter where its enqueue was accepted. What that destination did with it in the same call its events say; it may have
 * expired there already, and a topic keeps it only for consumers that accept it. */
struct station_told_outcome station_call_told(uint64_t *heads, size_t heads_words,
                                              uint64_t (*subs)[DESTINATION_SUB_WORDS], size_t subs_length,
                                              uint64_t (*rows)[DESTINATION_ROW_WORDS], size_t rows_length,
                                              uint64_t *own, size_t own_words,
                                              uint64_t (*events)[DESTINATION_EVENT_WORDS], size_t events_length,
                                              struct station_told *told, size_t told_length,
                                              uint64_t number, struct destination_request request);

/* Does many calls with one test of the station: from the first on, each as station_call would do it on what is left of the event list. The code of a request is
 * STATION_CODE(code, number) here, with its destination's number in it. The outcomes and events of all stand one after another; what stands past them is as it was. It ends
 * with the last request, with the last place for an outcome, or where fewer than 4,872 places for events are left: so lend a list that is longer by what the calls
 * may send, and go on from requests + calls. Where a state array is short or the station is not sound none is done; station_call then says why. A start is no request: on
 * a station that was started a batch may begin with its opens. */
struct destination_done station_calls(uint64_t *heads, size_t heads_words,
                                      uint64_t (*subs)[DESTINATION_SUB_WORDS], size_t subs_length,
                                      uint64_t (*rows)[DESTINATION_ROW_WORDS], size_t rows_length,
                                      uint64_t *own, size_t own_words,
                                      uint64_t (*events)[DESTINATION_EVENT_WORDS], size_t events_length,
                                      const struct destination_request *requests, size_t requests_length,
                                      struct destination_outcome *outcomes, size_t outcomes_length);

/* The two calls that have no code, of destination `number`. Refusals 1, 10, 2, 9. */
struct destination_outcome station_add_discarded(uint64_t *heads, size_t heads_words,
                                                 uint64_t (*subs)[DESTINATION_SUB_WORDS], size_t subs_length,
                                                 uint64_t (*rows)[DESTINATION_ROW_WORDS], size_t rows_length,
                                                 const uint64_t *own, size_t own_words,
                                                 uint64_t (*events)[DESTINATION_EVENT_WORDS], size_t events_length,
                                                 uint64_t number);
struct destination_outcome station_expired_before_storing(uint64_t *heads, size_t heads_words,
                                                          uint64_t (*subs)[DESTINATION_SUB_WORDS], size_t subs_length,
                                                          uint64_t (*rows)[DESTINATION_ROW_WORDS], size_t rows_length,
                                                          const uint64_t *own, size_t own_words,
                                                          uint64_t (*events)[DESTINATION_EVENT_WORDS], size_t events_length,
                                                          uint64_t number);

/* The query of the next number and the lost count: it changes nothing and uses no call. Asked before an enqueue it says which number the entry will have; the letters
 * of an acknowledgement take the next ones, in the order of its dead-letter events (station_call_told says them too). */
struct station_numbered station_numbers(const uint64_t *heads, size_t heads_words,
                                        const uint64_t (*subs)[DESTINATION_SUB_WORDS], size_t subs_length,
                                        const uint64_t (*rows)[DESTINATION_ROW_WORDS], size_t rows_length,
                                        const uint64_t *own, size_t own_words);

/* ---- on a struct station. The other requests are those of destination.h: station_do(s, number, destination_request_join(consumer, clock)) */

static inline struct destination_request station_request_open(uint64_t kind, uint64_t topic_limit, uint64_t call_limit, uint64_t clock,
                                                              uint64_t allowance, uint64_t share, uint64_t name)
{
    struct destination_request r = destination_request_open(kind, topic_limit, call_limit, clock, allowance, share);
    r.words[6] = name;
    return r;
}

static inline uint64_t station_start_of(struct station *s)
{
    const struct station *c = s;
    return station_start(c->heads, STATION_HEAD_WORDS, c->subs, STATION_CONSUMERS, c->rows, STATION_ROWS, s->own, STATION_OWN_WORDS, c->events, STATION_EVENTS);
}

/* Any request. */
static inline struct destination_outcome station_do(struct station *s, uint64_t number, struct destination_request request)
{
    return station_call(s->heads, STATION_HEAD_WORDS, s->subs, STATION_CONSUMERS, s->rows, STATION_ROWS, s->own, STATION_OWN_WORDS, s->events,
                        STATION_EVENTS, number, request);
}

/* The same, with what became of its dead letters. told: a list of any length. */
static inline struct station_told_outcome station_do_told(struct station *s, struct station_told *told, size_t told_length, uint64_t number,
                                                          struct destination_request request)
{
    return station_call_told(s->heads, STATION_HEAD_WORDS, s->subs, STATION_CONSUMERS, s->rows, STATION_ROWS, s->own, STATION_OWN_WORDS, s->events,
                             STATION_EVENTS, told, told_length, number, request);
}

/* The request of a destination, as one of station_calls. */
static inline struct destination_request station_request(uint64_t number, struct destination_request request)
{
    request.code = STATION_CODE(request.code, number);
    return request;
}

/* Many, with an event list of its own, not s->events, as that one is full after the first event. */
static inline struct destination_done station_calls_of(struct station *s,
                                                       uint64_t (*events)[DESTINATION_EVENT_WORDS], size_t events_length,
                                                       const struct destination_request *requests, size_t requests_length,
                                                       struct destination_outcome *outcomes, size_t outcomes_length)
{
    return station_calls(s->heads, STATION_HEAD_WORDS, s->subs, STATION_CONSUMERS, s->rows, STATION_ROWS, s->own, STATION_OWN_WORDS, events, events_length,
                         requests, requests_length, outcomes, outcomes_length);
}

/* Begins destination `number` as an empty queue or topic, open or not. name: its dead-letter destination, or STATION_NONE. */
static inline struct destination_outcome station_open(struct station *s, uint64_t number, uint64_t kind, uint64_t topic_limit, uint64_t call_limit,
                                                      uint64_t clock, uint64_t allowance, uint64_t share, uint64_t name)
{
    return station_do(s, number, station_request_open(kind, topic_limit, call_limit, clock, allowance, share, name));
}

/* entry.sequence is 0: the station gives the number. */
static inline struct destination_outcome station_enqueue(struct station *s, uint64_t number, struct destination_entry entry, uint64_t clock)
{
    return station_do(s, number, destination_request_enqueue(entry, clock));
}

static inline struct destination_outcome station_join(struct station *s, uint64_t number, struct destination_consumer consumer, uint64_t clock)
{
    return station_do(s, number, destination_request_join(consumer, clock));
}

static inline struct destination_outcome station_ack(struct station *s, uint64_t number, struct destination_id id, struct destination_acknowledgement a,
                                                     uint64_t clock)
{
    return station_do(s, number, destination_request_ack(id, a, clock));
}

static inline struct destination_outcome station_add_discarded_of(struct station *s, uint64_t number)
{
    return station_add_discarded(s->heads, STATION_HEAD_WORDS, s->subs, STATION_CONSUMERS, s->rows, STATION_ROWS, s->own, STATION_OWN_WORDS, s->events,
                                 STATION_EVENTS, number);
}

static inline struct destination_outcome station_expired_before_storing_of(struct station *s, uint64_t number)
{
    return station_expired_before_storing(s->heads, STATION_HEAD_WORDS, s->subs, STATION_CONSUMERS, s->rows, STATION_ROWS, s->own, STATION_OWN_WORDS,
                                          s->events, STATION_EVENTS, number);
}

static inline struct station_numbered station_numbers_of(const struct station *s)
{
    return station_numbers(s->heads, STATION_HEAD_WORDS, s->subs, STATION_CONSUMERS, s->rows, STATION_ROWS, s->own, STATION_OWN_WORDS);
}

/* The part of destination k, 0 to 7. Of one that is not open it may hold anything: the queries then answer what it happens to hold, or refuse with 2. */
static inline struct station_part station_part_of(const struct station *s, size_t k)
{
    struct station_part p = {s->heads + k * DESTINATION_HEAD_WORDS, s->subs + k * DESTINATION_CONSUMERS, s->rows + k * DESTINATION_ROWS};
    return p;
}

static inline bool station_is_open(const struct station *s, size_t k)
{
    return s->own[STATION_OWN_OPEN(k)] != 0;
}

/* ---- reading an event: its first word is kind + 256 x destination, the others are those of destination.h */

#define STATION_EVENT_KIND(event) ((event)[0] % 256)        /* DESTINATION_DEAD_LETTER, DESTINATION_MESSAGE or DESTINATION_NULL */
#define STATION_EVENT_DESTINATION(event) ((event)[0] / 256) /* 0 to 7 */

/* The entry, of a dead letter or a message. */
static inline uint64_t station_event_sequence(const uint64_t event[DESTINATION_EVENT_WORDS])
{
    return STATION_EVENT_KIND(event) == DESTINATION_DEAD_LETTER ? event[1] : event[4];
}

static inline int32_t station_event_redelivery(const uint64_t event[DESTINATION_EVENT_WORDS])
{
    return (int32_t)destination_signed(STATION_EVENT_KIND(event) == DESTINATION_DEAD_LETTER ? event[2] : event[5]);
}

/* Whether the client gave the cause of a dead letter. */
static inline bool station_event_cause(const uint64_t event[DESTINATION_EVENT_WORDS])
{
    return STATION_EVENT_KIND(event) == DESTINATION_DEAD_LETTER && event[3] != 0;
}

/* The consumer, of a message or a null. */
static inline struct destination_id station_event_consumer(const uint64_t event[DESTINATION_EVENT_WORDS])
{
    return destination_event_consumer(event);
}

#ifdef __cplusplus
}
#endif

#endif
