/* The lock machine in plain C over the cycle of case L, to measure against.
   Each byte on standard input is one round, a run of 4,000 entries. It tests neither the scripts nor the state before a round. */
#include "machine.h"

/* What it needs of the C library, declared here: the kit has the library and no headers. */
extern long read(int, void *, unsigned long);
extern int printf(const char *, ...);

enum { ENTRIES = 4000 };

/* Returns how many entries were accepted. */
static uint64_t run(const struct scripts *s, struct lock *l, struct rec *recs, const uint64_t *schedule, uint64_t n, uint64_t *trace)
{
    uint64_t done = 0, busy = 0;
    for (uint64_t i = 0; i < s->count; i++)
        busy += recs[i].place != IDLE;
    for (uint64_t k = 0; k < n; k++)
        done += (uint64_t)step(s, l, recs, &busy, schedule[k], trace + ROW_WORDS * k);
    return done;
}

int main(void)
{
    static const uint64_t cycle[] = {1, 1, 0, 0, 2, 0, 0, 1, 1, 2}, warm[] = {0, 0, 2};
    static const uint64_t lens[] = {2, 2, 2}, ops[] = {1, 3, 1, 3, 4, 5}, vals[] = {0, 0, 0, 0, 0, 5};
    static uint64_t schedule[ENTRIES], trace[ROW_WORDS * ENTRIES];
    static unsigned char chunk[65536];
    struct scripts s = {3, lens, ops, vals, {0, 2, 4}};
    struct lock l = {.full = 1, .value = 5, .top = 2};
    struct rec recs[MOST_THREADS] = {0};
    for (int k = 0; k < ENTRIES; k++)
        schedule[k] = cycle[k % 10];
    uint64_t accepted = run(&s, &l, recs, warm, 3, trace), entries = 3;
    for (long n; (n = read(0, chunk, sizeof chunk)) > 0;)
        for (long k = 0; k < n; k++) {
            accepted += run(&s, &l, recs, schedule, ENTRIES, trace);
            entries += ENTRIES;
        }
    printf("%lu entries, accepted %lu\n", entries, accepted);
    return 0;
}
