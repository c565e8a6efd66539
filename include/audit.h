/* Duplicate detection for the numbers of one producer: the last 1,024 are remembered.
 *
 * Link with libaudit.a (tools/build audit_c; x86-64). No memory is allocated and nothing is kept between calls: the
 * caller owns a window of words and a struct audit, and passes both to each call.
 *
 * A window is an array of at least 1,024 uint64_t (8,192 bytes). What stands in it at the beginning does not matter, so
 * it need not be cleared. Words past the first 1,024 are never written. One window and one struct audit belong
 * together, and to one producer.
 *
 * Numbers are only compared for equality, so a signed number may be passed as (uint64_t)number.
 */
#ifndef AUDIT_H
#define AUDIT_H

#include <stdbool.h>
#include <stddef.h>
#include <stdint.h>

#ifdef __cplusplus
extern "C" {
#endif

/* How many numbers are remembered, and how many words a window must have; audit_window() says the same. */
#define AUDIT_WINDOW 1024

/* Refusals. */
#define AUDIT_ACCEPTED 0
#define AUDIT_SHORT_WINDOW 1 /* the window has under 1,024 words */
#define AUDIT_NOT_SOUND 2    /* the struct audit is out of range: see audit_sound */

/* What a window holds: the place of the oldest number, and how many numbers there are. Two words, 16 bytes. Callers may
 * store it and pass it again, and should not change it. */
struct audit {
    size_t start;
    size_t count;
};

/* What a check gives. 32 bytes. */
struct audit_checked {
    uint64_t refusal;   /* AUDIT_ACCEPTED, AUDIT_SHORT_WINDOW or AUDIT_NOT_SOUND */
    struct audit audit; /* pass this to the next call with the same window */
    bool duplicate;     /* whether the number was there */
};

/* 1,024. */
size_t audit_window(void);

/* The audit of a producer that has sent nothing. */
struct audit audit_new(void);

/* Whether a call accepts this audit: either count is below 1,024 and start is 0, or count is 1,024 and start is below
 * 1,024. What audit_new and an accepted check give is always accepted. */
bool audit_sound(struct audit a);

/* Looks the number up among those recorded.
 * There: duplicate is true, and the window and the audit stay as they are.
 * Not there: duplicate is false, and the number is recorded, in the place of the oldest if there are 1,024.
 * Refused (the window is tested first): duplicate is false, and the window and the audit stay as they are.
 *
 * window: length words that are the caller's to read and write; not a null pointer, and nobody else reads or writes
 * them during the call. A length above the array's true one is an error that cannot be seen here. */
struct audit_checked audit_check_and_record(uint64_t *window, size_t length, struct audit a, uint64_t number);

#ifdef __cplusplus
}
#endif

#endif
