/* Random calls for a station: few identifiers, every code, and entries that are often rejected. */
#ifndef STATION_TRAFFIC_H
#define STATION_TRAFFIC_H

#include <string.h>

#include "station.h"

#include "../random.h"

/* An open: sometimes with few calls or a small share, so that it soon refuses letters; any name. */
static struct destination_request traffic_open(uint64_t clock)
{
    uint64_t calls = one_in(3) ? 1 + below(40) : DESTINATION_CALL_LIMIT_MOST;
    return station_request_open(one_in(3), one_in(2) ? 0 : 1 + below(20), calls, clock, one_in(2) ? 0 : below(60), one_in(3) ? 1 + below(8) : 0, below(9));
}

static size_t traffic_used(struct station_part p)
{
    size_t used = p.head[15] + p.head[16];
    for (size_t i = 0; i < p.head[12]; i++)
        used += p.subs[i][14] + p.subs[i][15];
    return used;
}

/* the sequence number of some row */
static uint64_t traffic_sequence(struct station_part p)
{
    size_t used = traffic_used(p);
    return used == 0 ? 1 + below(50) : p.rows[below(used)][0];
}

/* the words after an identifier */
static void traffic_rest(struct station_part p, uint64_t code, uint64_t clock, uint64_t *w)
{
    switch (code) {
    case DESTINATION_JOIN:
        w[3] = one_in(2) ? 600 : below(4);
        w[4] = one_in(3) ? below(2) : DESTINATION_NO_SELECTOR;
        w[5] = one_in(5) ? below(4) : 0;
        w[6] = clock;
        break;
    case DESTINATION_LEAVE:
        w[3] = one_in(2) ? UINT64_MAX : traffic_sequence(p);
        w[4] = clock;
        break;
    case DESTINATION_ACK:
        w[3] = (one_in(4) ? below(8) : DESTINATION_POISON) + (one_in(6) ? DESTINATION_TRANSACTED : 0) + DESTINATION_HAS_LAST + 2048 * below(2);
        w[5] = traffic_sequence(p);
        w[6] = clock;
        break;
    case DESTINATION_PULL:
        w[3] = below(3) - 1;
        w[4] = clock;
        break;
    case DESTINATION_PREFETCH:
        w[3] = below(6);
        w[4] = clock;
        break;
    case DESTINATION_REMOVE_PRODUCER:
    case DESTINATION_RELEASE:
        w[3] = clock;
        break;
    case DESTINATION_TIMEOUT:
    case DESTINATION_DUPLICATE:
        w[3] = below(40);
        break;
    default:
        break;
    }
}

/* A call of the destination whose part this is, by what it holds. */
static struct destination_request traffic(struct station_part p, uint64_t clock)
{
    struct destination_request r = {one_in(3) ? DESTINATION_ENQUEUE : one_in(3) ? DESTINATION_ACK : one_in(3) ? DESTINATION_JOIN : 1 + below(15), {0}};
    struct destination_entry e = {.expiration = one_in(3) ? (int64_t)(clock + below(60)) : 0, .persistent = !one_in(5), .producer = below(4), .match_word = below(4),
                                  .redelivery = (int32_t)below(3), .size = (uint32_t)below(1000)};
    switch (r.code) {
    case DESTINATION_ENQUEUE:
        return destination_request_enqueue(e, clock);
    case DESTINATION_CLEAR:
        return one_in(9) ? r : destination_request_sweep(clock, below(4));
    case DESTINATION_SWEEP:
        return destination_request_sweep(clock, below(513));
    case DESTINATION_RELEASE_AUDITS:
        return destination_request_release_audits(1 + below(3));
    default:
        break;
    }
    if (p.head[12] != 0 && r.code != DESTINATION_JOIN && !one_in(5)) {
        memcpy(r.words, p.subs[below(p.head[12])], 24);
    } else {
        r.words[0] = 1 + below(3);
        r.words[1] = 0 - below(2);
        r.words[2] = below(3);
    }
    traffic_rest(p, r.code, clock, r.words);
    return r;
}

#endif
