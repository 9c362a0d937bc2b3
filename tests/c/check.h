/* What every test here needs: a condition that must hold, and numbers from a seed. */
#ifndef CHECK_H
#define CHECK_H

#include <stddef.h>
#include <stdint.h>
#include <stdio.h>
#include <stdlib.h>

#define MUST(condition) ((condition) ? (void)0 : failed(__FILE__, __LINE__, #condition))

/* What is tried just now: a failure among a million trials is of use only if it says which. */
struct trial {
    const char *plan, *damage;
    size_t at;
    unsigned long long value;
};
static struct trial trial;

static inline _Noreturn void failed(const char *file, int line, const char *condition)
{
    fflush(stdout);
    fprintf(stderr, "%s:%d: not so: %s\n", file, line, condition);
    if (trial.plan)
        fprintf(stderr, "plan: %s; damage: %s, at %zu, value %llu\n", trial.plan, trial.damage, trial.at, trial.value);
    exit(1);
}

/* the next number of the seed's */
static inline uint64_t noise(void)
{
    static uint64_t seed = 20250101;
    seed ^= seed << 13;
    seed ^= seed >> 7;
    seed ^= seed << 17;
    return seed;
}

/* a number below `below`, which is not 0 */
static inline uint32_t draw(uint32_t below)
{
    return (uint32_t)((noise() >> 11) % below);
}

#endif
