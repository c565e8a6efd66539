/* Two queues on a station: what the first rejects goes to the second, with a number of its own, and the call says what became of each letter. Each queue is asked by the
 * queries of a destination. */
#include <inttypes.h>
#include <stdio.h>

#include "station.h"

enum { BLOCKS = 0, REJECTED = 1 };

static struct station station;

/* what a call has sent */
static void show_events(size_t count)
{
    for (size_t i = 0; i < count; i++) {
        const uint64_t *e = station.events[i];
        struct destination_id to = station_event_consumer(e);
        printf("    %" PRIu64 ": ", STATION_EVENT_DESTINATION(e));
        switch (STATION_EVENT_KIND(e)) {
        case DESTINATION_DEAD_LETTER:
            printf("dead letter %" PRIu64 ", redelivery %" PRId32 ", cause %s\n", station_event_sequence(e), station_event_redelivery(e),
                   station_event_cause(e) ? "the client's" : "default");
            break;
        case DESTINATION_MESSAGE:
            printf("message %" PRIu64 ", redelivery %" PRId32 ", to %" PRIu64 " %" PRId64 " %" PRId64 "\n", station_event_sequence(e),
                   station_event_redelivery(e), to.connection, to.session, to.value);
            break;
        default:
            printf("null to %" PRIu64 " %" PRId64 " %" PRId64 "\n", to.connection, to.session, to.value);
        }
    }
}

static void show(const char *what, struct destination_outcome o)
{
    printf("%s: ", what);
    if (o.refusal == DESTINATION_ACCEPTED)
        printf("answer %" PRIu64 "\n", o.answer);
    else
        printf("refused with %" PRIu64 "\n", o.refusal);
    show_events(o.events);
}

/* what became of a call's dead letters: so the host knows where it finds each content from now on */
static void show_told(const struct station_told *told, size_t count)
{
    for (size_t i = 0; i < count; i++) {
        printf("    letter %" PRIu64 ", now %" PRIu64 ": ", told[i].had, told[i].got);
        if (told[i].destination == STATION_LOST)
            printf("lost\n");
        else
            printf("stored at %" PRIu64 "\n", told[i].destination);
    }
}

static void show_numbers(void)
{
    struct station_numbered n = station_numbers_of(&station);
    printf("refusal %" PRIu64 ", next number %" PRIu64 ", lost %" PRIu64 "\n", n.refusal, n.next, n.lost);
}

/* by the queries of libdestination.a, on a destination's part */
static void show_part(size_t k)
{
    struct station_part p = station_part_of(&station, k);
    struct destination_counted c = destination_counters(STATION_PART(p));
    printf("%zu: %" PRIu64 " there, %" PRIu64 " bytes; enqueued %" PRIu64 ", dequeued %" PRIu64 ", expired %" PRIu64 ", discarded %" PRIu64 ", dispatched %" PRIu64 "\n", k,
           destination_message_count(STATION_PART(p)).answer, destination_bytes_held(STATION_PART(p)).answer, c.enqueued, c.dequeued, c.expired, c.discarded,
           c.dispatched);
}

static void enqueue(uint64_t k, bool persistent)
{
    struct destination_entry e = {.persistent = persistent, .producer = 7, .redelivery = 2, .size = 1000};
    show("enqueue", station_enqueue(&station, k, e, 10));
}

static void join(uint64_t k, struct destination_id id)
{
    struct destination_consumer c = {.id = id, .prefetch = 4, .selector = DESTINATION_NO_SELECTOR};
    show("join", station_join(&station, k, c, 20));
}

static void reject(uint64_t k, struct destination_id id, int64_t last)
{
    struct destination_acknowledgement a = {.type = DESTINATION_POISON, .has_last = true, .last = last, .cause = true};
    static struct station_told told[STATION_LETTERS];
    struct station_told_outcome o = station_do_told(&station, told, STATION_LETTERS, k, destination_request_ack(id, a, 30));
    show("reject", (struct destination_outcome){o.refusal, o.answer, o.events});
    show_told(told, o.letters);
}

int main(void)
{
    const struct destination_id decoder = {9, 1, 1}, analyst = {5, 1, 1};

    enqueue(BLOCKS, true); /* nothing is open yet */
    printf("start: refusal %" PRIu64 "\n", station_start_of(&station));
    show("open", station_open(&station, BLOCKS, DESTINATION_QUEUE, 0, 1000, 0, 0, 0, REJECTED));
    show("open", station_open(&station, REJECTED, DESTINATION_QUEUE, 0, 1000, 0, 0, 0, STATION_NONE));
    show_numbers();

    enqueue(BLOCKS, true);
    enqueue(BLOCKS, false);
    join(BLOCKS, decoder);
    join(REJECTED, analyst);
    reject(BLOCKS, decoder, 2); /* 1 and 2; 2 is not persistent, and is discarded. 1 becomes the letter 3 */
    show_numbers();
    show_part(BLOCKS);
    show_part(REJECTED);

    reject(REJECTED, analyst, 3); /* no destination is named there: the letter 4 is lost */
    show_numbers();
    show_part(REJECTED);

    show("enqueue with a number", station_enqueue(&station, BLOCKS, (struct destination_entry){.sequence = 9}, 40));
    enqueue(5, true);
    return 0;
}
