/* A queue from C: consumers join, entries are sent to them and acknowledged, one is rejected, one returns and is pulled. */
#include <inttypes.h>
#include <stdio.h>

#include "destination.h"

static struct destination queue;

/* what a call has sent */
static void show_events(size_t count)
{
    for (size_t i = 0; i < count; i++) {
        const uint64_t *e = queue.events[i];
        struct destination_id to = destination_event_consumer(e);
        switch (destination_event_kind(e)) {
        case DESTINATION_DEAD_LETTER:
            printf("    dead letter %" PRIu64 ", redelivery %" PRId32 ", cause %s\n", destination_event_sequence(e),
                   destination_event_redelivery(e), destination_event_cause(e) ? "the client's" : "default");
            break;
        case DESTINATION_MESSAGE:
            printf("    message %" PRIu64 ", redelivery %" PRId32 ", to %" PRIu64 " %" PRId64 " %" PRId64 "\n",
                   destination_event_sequence(e), destination_event_redelivery(e), to.connection, to.session, to.value);
            break;
        default:
            printf("    null to %" PRIu64 " %" PRId64 " %" PRId64 "\n", to.connection, to.session, to.value);
        }
    }
}

static struct destination_outcome show(const char *what, struct destination_outcome o)
{
    printf("%s: ", what);
    if (o.refusal == DESTINATION_ACCEPTED)
        printf("answer %" PRIu64 "\n", o.answer);
    else
        printf("refused with %" PRIu64 "\n", o.refusal);
    show_events(o.events);
    return o;
}

static struct destination_outcome enqueue(uint64_t sequence, int64_t expiration, uint64_t clock)
{
    struct destination_entry e = {.sequence = sequence, .expiration = expiration, .persistent = true, .producer = 7,
                                  .size = (uint32_t)(100 * sequence)};
    char what[40];
    snprintf(what, sizeof what, "enqueue %" PRIu64, sequence);
    return show(what, destination_enqueue(&queue, e, clock));
}

static struct destination_outcome join(struct destination_id id, int32_t prefetch, uint64_t clock)
{
    struct destination_consumer c = {.id = id, .prefetch = prefetch, .selector = DESTINATION_NO_SELECTOR};
    return show("join", destination_join(&queue, c, clock));
}

static struct destination_outcome ack(struct destination_id id, uint8_t type, int64_t last, bool cause, uint64_t clock)
{
    struct destination_acknowledgement a = {.type = type, .has_last = true, .last = last, .cause = cause};
    return show("ack", destination_ack(&queue, id, a, clock));
}

static void show_waiting(void)
{
    struct destination_page_line lines[DESTINATION_PAGE_LINES];
    struct destination_paged p = destination_page_of(&queue, lines, DESTINATION_PAGE_LINES, 0, 10);
    printf("waiting %" PRIu64 ":", p.total);
    for (size_t i = 0; i < p.count; i++)
        printf(" %" PRIu64 " (expiration %" PRId64 ", redelivery %" PRId32 ")", lines[i].sequence, lines[i].expiration,
               lines[i].redelivery);
    printf("\nbytes held %" PRIu64 "\n", destination_bytes_held_of(&queue).answer);
}

static void show_counters(void)
{
    struct destination_counted c = destination_counters_of(&queue);
    printf("enqueued %" PRIu64 ", dequeued %" PRIu64 ", expired %" PRIu64 ", discarded %" PRIu64 ", dispatched %" PRIu64 "\n",
           c.enqueued, c.dequeued, c.expired, c.discarded, c.dispatched);
}

int main(void)
{
    const struct destination_id pusher = {9, 1, 1}, puller = {9, 1, -2};

    show("enqueue before open", destination_enqueue(&queue, (struct destination_entry){.sequence = 5}, 0));
    show("open", destination_open(&queue, DESTINATION_QUEUE, 0, 100, 0, 0, 0));

    enqueue(5, 0, 10);
    enqueue(3, 20, 10); /* goes first, but has expired when a consumer comes */
    show_waiting();
    join(pusher, 1, 30);
    ack(pusher, DESTINATION_STANDARD, 5, false, 31);

    enqueue(8, 0, 40);
    enqueue(9, 0, 40);
    enqueue(9, 0, 40);
    ack(pusher, DESTINATION_POISON, 8, true, 41); /* makes room for 9 */
    show("leave", destination_leave(&queue, pusher, DESTINATION_LAST_UNKNOWN, 50));
    show_waiting();

    join(puller, 0, 60);
    show("pull", destination_pull(&queue, puller, 5, 60));
    ack(puller, DESTINATION_INDIVIDUAL, 9, false, 61);
    uint64_t generation = show("pull", destination_pull(&queue, puller, 5, 62)).answer;
    show("timeout", destination_timeout(&queue, puller, generation));
    show("sweep with a maximum of 513", destination_sweep(&queue, 70, 513));

    show_waiting();
    show_counters();
    return 0;
}
