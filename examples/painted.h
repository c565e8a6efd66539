/* How much stack a function takes: it is run on a stack of its own that was painted before, and what is no longer paint was used. Before this header
 * stand _XOPEN_SOURCE 700, for ucontext, and PAINTED_ROOM, the bytes of that stack. */
#ifndef EXAMPLES_PAINTED_H
#define EXAMPLES_PAINTED_H

#include <stddef.h>
#include <string.h>
#include <ucontext.h>

enum { PAINT = 0x5a };

static unsigned char painted[PAINTED_ROOM];
static ucontext_t painted_here, painted_there;

/* The bytes of stack that a function takes. */
static size_t taken(void (*f)(void))
{
    size_t paint = 0;
    memset(painted, PAINT, PAINTED_ROOM);
    getcontext(&painted_there);
    painted_there.uc_stack.ss_sp = painted;
    painted_there.uc_stack.ss_size = PAINTED_ROOM;
    painted_there.uc_link = &painted_here;
    makecontext(&painted_there, f, 0);
    swapcontext(&painted_here, &painted_there);
    while (paint < PAINTED_ROOM && painted[paint] == PAINT)
        paint++;
    return PAINTED_ROOM - paint;
}

#endif
