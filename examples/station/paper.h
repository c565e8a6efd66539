/* The refusals of a station once more, written in C from document 02 §1 and docs/LAYOUT.md over those of a destination. */
#ifndef STATION_PAPER_H
#define STATION_PAPER_H

#include "../destination/paper.h"
#include "station.h"

struct station_lent {
    const uint64_t *heads;
    const uint64_t (*subs)[DESTINATION_SUB_WORDS];
    const uint64_t (*rows)[DESTINATION_ROW_WORDS];
    const uint64_t *own;
    size_t heads_length, subs_length, rows_length, own_length, events_length;
};

/* one destination's part, and the event list that it wants */
static struct lent paper_part(struct station_lent s, size_t k)
{
    struct lent p = {s.heads + 8347 * k, s.subs + 32 * k, s.rows + 512 * k, 8347, 32, 512, 545};
    return p;
}

static bool paper_own_words(const uint64_t *own)
{
    for (size_t k = 0; k < 8; k++)
        if (!paper_mark(own[k]) || (own[k] == 1 && own[8 + k] > 8))
            return false;
    return 1 <= own[16] && own[16] <= UINT64_C(1) << 63 && own[17] < UINT64_C(1) << 63;
}

static bool paper_station_sound(struct station_lent s)
{
    for (size_t k = 0; k < 8; k++)
        if (s.own[k] != 0 && !paper_sound(paper_part(s, k)))
            return false;
    return paper_own_words(s.own);
}

static bool paper_state_short(struct station_lent s)
{
    return s.heads_length < 66776 || s.subs_length < 256 || s.rows_length < 4096 || s.own_length < 20;
}

/* 1, 10 and 2 */
static uint64_t paper_station_first(struct station_lent s, uint64_t number, bool opens)
{
    if (paper_state_short(s) || s.events_length < 4872)
        return 1;
    if (number > 7 || (!opens && s.own[number] == 0))
        return 10;
    return opens || paper_station_sound(s) ? 0 : 2;
}

/* the refusal of a call, 0 for none */
static uint64_t paper_station_refusal(struct station_lent s, uint64_t number, struct destination_request r)
{
    uint64_t first = paper_station_first(s, number, r.code == 0), name = r.words[6];
    if (first != 0)
        return first;
    if (r.code == 0) {
        r.words[6] = 0;
        return name <= 8 && paper_arguments(r) ? 0 : 3;
    }
    if (r.code == 1 && r.words[0] != 0)
        return 3;
    if (r.code == 1)
        r.words[0] = s.own[16];
    return paper_refusal(paper_part(s, number), r);
}

/* of the two calls without a code */
static uint64_t paper_station_uncoded(struct station_lent s, uint64_t number)
{
    uint64_t first = paper_station_first(s, number, false);
    return first != 0 ? first : paper_uncoded(paper_part(s, number));
}

/* of the query */
static uint64_t paper_station_asked(struct station_lent s)
{
    if (paper_state_short(s))
        return 1;
    return paper_station_sound(s) ? 0 : 2;
}

#endif
