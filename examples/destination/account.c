/* A queue that runs with the account of its blocks: what leaves is printed as it leaves, and the totals are held beside the counters. */
#include <inttypes.h>
#include <stdio.h>

#include "destination.h"

static struct destination queue;
static struct destination_block held[DESTINATION_HELD_BLOCKS], left[DESTINATION_LEFT_BLOCKS];
static size_t in_use;          /* of `held` */
static uint64_t totals[8];     /* of the blocks that left, by place */
static uint64_t last_letters;  /* of those dead-lettered, the ones that are not persistent: they count as discarded */
static bool right = true;

static const char *const places[8] = {"waiting", "in flight", "reserved", "dequeued", "expired", "discarded", "dead-lettered", "cleared"};

/* One call, and the report of it. */
static struct destination_noted run(const char *what, struct destination_request request)
{
    struct destination_noted r = destination_call_noted_of(&queue, held, in_use, left, request);
    printf("%s:", what);
    if (r.refusal != DESTINATION_ACCEPTED)
        printf(" refused with %" PRIu64, r.refusal);
    in_use = r.held;
    for (size_t i = 0; i < r.left; i++) {
        printf(" %" PRIu64 " %s", left[i].sequence, places[left[i].place]);
        totals[left[i].place]++;
        if (left[i].place == DESTINATION_PLACE_DEAD_LETTERED && left[i].persistent == 0)
            last_letters++;
    }
    printf("; held");
    for (size_t i = 0; i < in_use; i++)
        printf(" %" PRIu64 " %s", held[i].sequence, places[held[i].place]);
    printf("\n");
    return r;
}

/* The enqueued counter is the total over all eight places, the others are their parts. */
static void compare(void)
{
    struct destination_counted c = destination_counters_of(&queue);
    uint64_t gone = 0;
    for (size_t i = DESTINATION_PLACE_DEQUEUED; i <= DESTINATION_PLACE_CLEARED; i++)
        gone += totals[i];
    right = right && c.enqueued == in_use + gone && c.dequeued == totals[DESTINATION_PLACE_DEQUEUED];
    right = right && c.expired == totals[DESTINATION_PLACE_EXPIRED] && c.discarded == totals[DESTINATION_PLACE_DISCARDED] + last_letters;
}

static void enqueue(uint64_t sequence, int64_t expiration, bool persistent)
{
    struct destination_entry e = {.sequence = sequence, .expiration = expiration, .persistent = persistent, .producer = 7};
    run("enqueue", destination_request_enqueue(e, 0));
    compare();
}

static void acknowledge(struct destination_id id, uint8_t type, int64_t first, int64_t last, bool transacted)
{
    struct destination_acknowledgement a = {.type = type, .transacted = transacted, .has_first = true, .first = first, .has_last = true, .last = last};
    run("ack", destination_request_ack(id, a, 31));
    compare();
}

int main(void)
{
    const struct destination_id decoder = {9, 1, 1};
    const struct destination_consumer consumer = {.id = decoder, .prefetch = 4, .selector = DESTINATION_NO_SELECTOR};
    const struct destination_consumer browser = {.id = {8, 1, 1}, .prefetch = 5, .selector = DESTINATION_NO_SELECTOR, .browser = true};

    if (destination_held_blocks() != DESTINATION_HELD_BLOCKS || destination_left_blocks() != DESTINATION_LEFT_BLOCKS)
        return 1;
    run("open", destination_request_open(DESTINATION_QUEUE, 0, 100, 0, 0, 0));
    enqueue(1, 20, true);
    enqueue(2, 0, true);
    enqueue(3, 0, false);
    enqueue(4, 0, true);
    enqueue(5, 0, true);
    enqueue(6, 0, true);
    enqueue(5, 0, true); /* 5 is held */
    run("join", destination_request_join(consumer, 30)); /* 1 has expired */
    acknowledge(decoder, DESTINATION_INDIVIDUAL, 2, 2, false);
    acknowledge(decoder, DESTINATION_POISON, 3, 4, false);
    acknowledge(decoder, DESTINATION_EXPIRED, 5, 5, false);
    acknowledge(decoder, DESTINATION_INDIVIDUAL, 6, 6, true);
    enqueue(7, 0, true);
    run("leave", destination_request_leave(decoder, DESTINATION_LAST_UNKNOWN, 40)); /* 6 stays reserved, 7 returns */
    run("a browser", destination_request_join(browser, 41)); /* is shown 7, which still waits */
    compare();
    run("clear", destination_request_clear());
    compare();
    for (size_t i = DESTINATION_PLACE_DEQUEUED; i <= DESTINATION_PLACE_CLEARED; i++)
        printf("%s %" PRIu64 "\n", places[i], totals[i]);
    printf("%s\n", right ? "the counters are the totals" : "the counters are not the totals");
    return right ? 0 : 1;
}
