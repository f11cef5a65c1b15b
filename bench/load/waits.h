/* How long requests took: a histogram with 64 buckets for each power of two of nanoseconds, so a percentile is right within 1.6 %. */
#ifndef WAITS_H
#define WAITS_H
#include <stdint.h>
#include <time.h>

enum { WAITS_EACH = 64, WAITS_BUCKETS = 40 * WAITS_EACH };

typedef struct {
    uint64_t of[WAITS_BUCKETS], count;
    double greatest; /* seconds */
} Waits;

static inline double now(void)
{
    struct timespec t;
    clock_gettime(CLOCK_MONOTONIC, &t);
    return (double)t.tv_sec + (double)t.tv_nsec / 1e9;
}

static inline int waits_bucket(uint64_t ns)
{
    if (ns < WAITS_EACH) return (int)ns;
    int top = 63 - __builtin_clzll(ns);
    int at = (top - 5) * WAITS_EACH + (int)(ns >> (top - 6) & (WAITS_EACH - 1));
    return at < WAITS_BUCKETS ? at : WAITS_BUCKETS - 1;
}

/* The middle of a bucket, in nanoseconds. */
static inline double waits_value(int at)
{
    if (at < WAITS_EACH) return at;
    double width = (double)(1ull << (at / WAITS_EACH - 1));
    return width * (WAITS_EACH + at % WAITS_EACH) + width / 2;
}

static inline void waits_note(Waits *w, double seconds)
{
    w->of[waits_bucket(seconds > 0 ? (uint64_t)(seconds * 1e9) : 0)]++;
    w->count++;
    if (seconds > w->greatest) w->greatest = seconds;
}

static inline void waits_add(Waits *w, const Waits *other)
{
    for (int i = 0; i < WAITS_BUCKETS; i++) w->of[i] += other->of[i];
    w->count += other->count;
    if (other->greatest > w->greatest) w->greatest = other->greatest;
}

/* The wait, in milliseconds, that a `part` of all stay below: 0.999 for the percentile 99.9. With no wait at all it is 0. */
static inline double waits_at(const Waits *w, double part)
{
    uint64_t want = (uint64_t)((double)w->count * part), sum = 0;
    for (int i = 0; i < WAITS_BUCKETS; i++)
        if ((sum += w->of[i]) > want) return waits_value(i) / 1e6;
    return w->greatest * 1e3;
}

#endif
