/* How much stack the library takes: each function is run on a stack of its own that was painted before, on random calls, and what is no longer paint was used. The header's
 * figures are tested: an argument prints what was used. */
#define _XOPEN_SOURCE 700
#define PAINTED_ROOM 262144
#include <inttypes.h>
#include <stdio.h>

#include "destination.h"

#include "../painted.h"

enum { CALLS = 8000 };

static struct destination state;
static struct destination_page_line lines[DESTINATION_OUTLOOK_LINES];
static struct destination_request request;
static volatile uint64_t seen; /* so that no query is left out */

static struct destination_block held[DESTINATION_HELD_BLOCKS], left[DESTINATION_LEFT_BLOCKS];
static size_t in_use;

static void call(void) { seen = destination_do(&state, request).refusal; }
static void noted(void) { in_use = destination_call_noted_of(&state, held, in_use, left, request).held; }
static void page(void) { seen = destination_page_of(&state, lines, DESTINATION_OUTLOOK_LINES, 0, 50).total; }
static void bytes(void) { seen = destination_bytes_held_of(&state).answer; }
static void others(void) { seen = destination_message_count_of(&state).answer + destination_counters_of(&state).enqueued; }

static void outlook(void)
{
    struct destination_span span = {5, 50, INT64_MIN, INT64_MAX};
    seen = destination_outlook_of(&state, lines, DESTINATION_OUTLOOK_LINES, span).alive;
}

static uint64_t any(uint64_t below)
{
    static uint64_t x = 88172645463325252u;
    x ^= x << 13;
    x ^= x >> 7;
    x ^= x << 17;
    return x % below;
}

/* A random call: many entries, a few consumers and browsers, every code. */
static struct destination_request random_call(uint64_t k)
{
    struct destination_id id = {1 + any(6), 1, 1};
    uint64_t code = any(4) == 0 ? 1 : 1 + any(15);
    struct destination_request r = {code, {id.connection, 1, 1, 0, 0, 0, 0, 0}};
    uint64_t clock = k / 64 + any(8);
    switch (code) {
    case 1: r = destination_request_enqueue((struct destination_entry){.sequence = 1 + k * 7 % 40009, .expiration = any(3) ? 0 : (int64_t)(clock + any(90)), .persistent = any(2), .producer = any(5), .match_word = any(4), .size = 3}, clock); break;
    case 2: r.words[3] = any(200); r.words[4] = any(3) ? 64 : any(2); r.words[5] = any(4); r.words[6] = clock; break;
    case 3: r.words[3] = any(2) ? (uint64_t)-1 : any(40009); r.words[4] = clock; break;
    case 4: r.words[3] = any(8) + 256 * any(2) + 1024; r.words[5] = 1 + any(40009); r.words[6] = clock; break;
    case 5: r.words[3] = any(3); r.words[4] = clock; break;
    case 6: r.words[3] = any(3); break;
    case 7: r.words[3] = any(300); r.words[4] = clock; break;
    case 9: r = destination_request_sweep(clock, any(9)); break;
    case 10: r = any(60) ? destination_request_sweep(clock, 1) : (struct destination_request){DESTINATION_CLEAR, {0}}; break;
    case 12: r.words[3] = clock; break;
    case 13: r.words[3] = any(3000); break;
    case 14: r = (struct destination_request){14, {id.connection, 0, 0, 0, 0, 0, 0, 0}}; break;
    case 15: r.words[3] = clock; break;
    default: break;
    }
    return r;
}

static size_t most(size_t a, size_t b) { return a < b ? b : a; }

static int within(const char *what, size_t used, size_t limit, int told)
{
    printf("%s: %s %zu bytes\n", what, used <= limit ? "at most" : "MORE THAN", limit);
    if (told)
        fprintf(stderr, "%s: %zu\n", what, used);
    return used > limit;
}

int main(int argc, char **argv)
{
    size_t calls = 0, accounts = 0, pages = 0, sizes = 0, outlooks = 0;
    (void)argv;
    for (uint64_t kind = 0; kind < 2; kind++) {
        destination_open(&state, kind, kind ? 40 : 0, 1000000, 0, 0, kind ? 0 : 400);
        for (uint64_t k = 0; k < CALLS; k++) {
            request = random_call(k);
            if (k % 2)
                calls = most(calls, taken(call));
            else
                accounts = most(accounts, taken(noted));
            if (k % 50 == 0) {
                pages = most(pages, most(taken(page), taken(others)));
                sizes = most(sizes, taken(bytes));
                outlooks = most(outlooks, taken(outlook));
            }
        }
    }
    return within("a call", calls, DESTINATION_STACK_CALL, argc > 1) | within("a call with its account", accounts, DESTINATION_STACK_NOTED, argc > 1) | within("a page, a count, the counters", pages, DESTINATION_STACK_CALL, argc > 1) |
           within("bytes held", sizes, DESTINATION_STACK_BYTES, argc > 1) | within("an outlook", outlooks, DESTINATION_STACK_OUTLOOK, argc > 1);
}
