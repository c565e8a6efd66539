/* A queue after a power loss, when the clock is only known between two readings: what has surely expired, what perhaps, what comes next; then a sweep. */
#include <inttypes.h>
#include <stdio.h>

#include "destination.h"

static struct destination queue;
static struct destination_page_line lines[DESTINATION_OUTLOOK_LINES];

static void enqueue(uint64_t sequence, int64_t expiration)
{
    struct destination_entry e = {.sequence = sequence, .expiration = expiration, .persistent = true, .producer = 7};
    struct destination_outcome o = destination_enqueue(&queue, e, 0);
    if (o.refusal != DESTINATION_ACCEPTED)
        printf("enqueue %" PRIu64 ": refused with %" PRIu64 "\n", sequence, o.refusal);
}

static void ask(uint64_t earlier, uint64_t later, int64_t from, int64_t to, size_t room)
{
    struct destination_span span = {earlier, later, from, to};
    struct destination_outlooked o = destination_outlook_of(&queue, lines, room, span);
    printf("from %" PRIu64 " to %" PRIu64 ": ", earlier, later);
    if (o.refusal != DESTINATION_ACCEPTED) {
        printf("refused with %" PRIu64 "\n", o.refusal);
        return;
    }
    printf("sure %" PRIu64 ", perhaps %" PRIu64 ", alive %" PRIu64 ", next %" PRIu64 ";", o.sure, o.perhaps, o.alive, o.next);
    for (size_t i = 0; i < o.count; i++)
        printf(" %" PRIu64 " at %" PRId64, lines[i].sequence, lines[i].expiration);
    printf("\n");
}

int main(void)
{
    if (destination_outlook_lines() != DESTINATION_OUTLOOK_LINES)
        return 1;
    destination_open(&queue, DESTINATION_QUEUE, 0, 100, 0, 10, 0); /* an allowance of 10 */
    enqueue(1, 50);
    enqueue(2, 30);
    enqueue(3, 20);
    enqueue(4, 0); /* never expires */
    enqueue(5, 41);
    enqueue(7, 41);
    enqueue(8, 25);
    enqueue(9, 40);

    ask(35, 50, 20, 41, DESTINATION_OUTLOOK_LINES);
    ask(35, 50, 41, 40, DESTINATION_OUTLOOK_LINES);
    ask(50, 35, 20, 41, DESTINATION_OUTLOOK_LINES);
    ask(35, 50, 20, 41, DESTINATION_OUTLOOK_LINES - 1);
    printf("a sweep at 41 removes %" PRIu64 "\n", destination_sweep(&queue, 41, 512).answer);
    ask(41, 50, INT64_MIN, INT64_MAX, DESTINATION_OUTLOOK_LINES);
    return 0;
}
