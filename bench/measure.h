/* What the drivers need to measure: the clock, numbers that are the same in every run, and turns. */
#ifndef MEASURE_H
#define MEASURE_H

#include <stddef.h>
#include <stdint.h>
#include <time.h>

static inline double now_ns(void)
{
    struct timespec t;
    clock_gettime(CLOCK_MONOTONIC, &t);
    return (double)t.tv_sec * 1e9 + (double)t.tv_nsec;
}

static uint64_t random_state = 0x9e3779b97f4a7c15;

static inline uint64_t next_random(void)
{
    random_state ^= random_state >> 12;
    random_state ^= random_state << 25;
    random_state ^= random_state >> 27;
    return random_state * 0x2545f4914f6cdd1d;
}

static inline uint64_t below(uint64_t limit)
{
    return (next_random() >> 16) % limit;
}

static inline void fill_random(uint8_t *bytes, size_t n)
{
    for (size_t i = 0; i < n; i++)
        bytes[i] = (uint8_t)(next_random() >> 56);
}

/* The lesser of a time and the best up to now, which is 0 where there is none yet. */
static inline double better(double best, double ns)
{
    return best == 0 || ns < best ? ns : best;
}

/* One rival's turn: it measures itself and keeps its best times in the job. */
typedef void turn(int rival, void *job);

/* The rivals take turns, in another order each round: so many rounds, and more until so many nanoseconds are over. */
static inline void take_turns(turn *turn_of, int rivals, void *job, int rounds, double ns)
{
    double until = now_ns() + ns;
    for (int round = 0; round < rounds || now_ns() < until; round++)
        for (int k = 0; k < rivals; k++)
            turn_of((round + k) % rivals, job);
}

#endif
