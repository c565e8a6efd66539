/* The audit library from C: document 01's corner, then the two refusals. */
#include <stdio.h>
#include <string.h>

#include "audit.h"

static uint64_t window[AUDIT_WINDOW + 1]; /* one word more than needed, to see that it stays */
static uint64_t before[AUDIT_WINDOW + 1];

static struct audit_checked check(size_t length, struct audit a, uint64_t number)
{
    memcpy(before, window, sizeof window);
    return audit_check_and_record(window, length, a, number);
}

/* how many words the last check changed */
static int changed(void)
{
    int n = 0;
    for (size_t i = 0; i < AUDIT_WINDOW + 1; i++)
        n += window[i] != before[i];
    return n;
}

static void show(const char *what, struct audit_checked r)
{
    const char *answer = r.duplicate ? "duplicate" : r.refusal == AUDIT_ACCEPTED ? "new" : "refused";
    printf("%s: %s (%d), start %zu, count %zu, words changed %d\n", what, answer, (int)r.refusal, r.audit.start,
           r.audit.count, changed());
}

int main(void)
{
    memset(window, 0xff, sizeof window);
    printf("window %zu, sizes %zu and %zu\n", audit_window(), sizeof(struct audit), sizeof(struct audit_checked));

    struct audit a = audit_new();
    int new = 0;
    for (uint64_t n = 0; n < AUDIT_WINDOW; n++) {
        struct audit_checked r = check(AUDIT_WINDOW + 1, a, n);
        new += r.refusal == AUDIT_ACCEPTED && !r.duplicate && changed() == 1;
        a = r.audit;
    }
    printf("0 to 1023: %d new, start %zu, count %zu\n", new, a.start, a.count);

    int there = 0;
    for (uint64_t n = 0; n < AUDIT_WINDOW; n++)
        there += check(AUDIT_WINDOW + 1, a, n).duplicate;
    printf("0 to 1023 again: %d duplicates\n", there);

    struct audit_checked r = check(AUDIT_WINDOW + 1, a, 1024);
    show("1024", r);
    a = r.audit;
    r = check(AUDIT_WINDOW + 1, a, 1024);
    show("1024 again", r);
    a = r.audit;
    r = check(AUDIT_WINDOW + 1, a, 0);
    show("0", r);
    a = r.audit;
    there = 0;
    for (uint64_t n = 2; n <= AUDIT_WINDOW; n++)
        there += check(AUDIT_WINDOW + 1, a, n).duplicate;
    printf("2 to 1024: %d duplicates\n", there);
    r = check(AUDIT_WINDOW + 1, a, 1);
    show("1", r);
    a = r.audit;
    r = check(AUDIT_WINDOW + 1, a, (uint64_t)(int64_t)-1);
    show("-1", r);
    a = r.audit;
    printf("the word past the window: %s\n", window[AUDIT_WINDOW] == UINT64_MAX ? "kept" : "changed");

    show("short window", check(AUDIT_WINDOW - 1, a, 5000));
    struct audit wrong[] = {{0, 1025}, {1024, 1024}, {1, 1023}};
    for (size_t i = 0; i < 3; i++) {
        printf("sound: %s\n", audit_sound(wrong[i]) ? "yes" : "no");
        show("out of range", check(AUDIT_WINDOW, wrong[i], 5000));
    }
    show("both, the window is tested first", check(AUDIT_WINDOW - 1, wrong[0], 5000));
    return 0;
}
