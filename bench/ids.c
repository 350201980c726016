/*
 * Prints a file of ids, one a line: ids generated|random|rising COUNT SEED
 *
 * generated  COUNT ids, of which about half are distinct: first COUNT / 2 + 1 distinct ones, spread over all ids by
 *            a multiplication, then the same ones again in the same order
 * random     COUNT random ids: each stands twice, at random places (one of them once where COUNT is odd)
 * rising     1 to COUNT
 */
#include <inttypes.h>
#include <stdio.h>
#include <stdlib.h>
#include <string.h>

/* 2^64 divided by the golden ratio, and odd: different numbers have different products. */
static const uint64_t SPREAD = 11400714819323198485U;

static void put(uint64_t id)
{
    printf("%" PRIu64 "\n", id);
}

static void put_generated(uint64_t count, uint64_t seed)
{
    uint64_t distinct = count / 2 + 1;

    for (uint64_t i = 0; i < count; i++)
        put((seed + i % distinct) * SPREAD);
}

static void put_rising(uint64_t count)
{
    for (uint64_t id = 1; id <= count; id++)
        put(id);
}

/* splitmix64, of G. Steele, D. Lea and C. Flood (OOPSLA 2014): different states give different numbers. */
static uint64_t next_random(uint64_t *state)
{
    uint64_t mixed = *state += SPREAD;

    mixed = (mixed ^ (mixed >> 30)) * 0xbf58476d1ce4e5b9U;
    mixed = (mixed ^ (mixed >> 27)) * 0x94d049bb133111ebU;
    return mixed ^ (mixed >> 31);
}

static void shuffle(uint64_t *ids, uint64_t count, uint64_t *state)
{
    for (uint64_t left = count; left > 1; left--) {
        uint64_t at = next_random(state) % left;
        uint64_t id = ids[at];

        ids[at] = ids[left - 1];
        ids[left - 1] = id;
    }
}

static int put_random(uint64_t count, uint64_t seed)
{
    uint64_t distinct = count - count / 2;
    uint64_t state = seed;
    uint64_t *ids = calloc(count, sizeof *ids);

    if (ids == NULL)
        return 0;
    for (uint64_t i = 0; i < count; i++)
        ids[i] = i < distinct ? next_random(&state) : ids[i - distinct];
    shuffle(ids, count, &state);
    for (uint64_t i = 0; i < count; i++)
        put(ids[i]);
    free(ids);
    return 1;
}

static int fail(const char *cause)
{
    fprintf(stderr, "ids: %s\n", cause);
    return 1;
}

int main(int words, char **word)
{
    if (words != 4)
        return fail("call it as: ids generated|random|rising COUNT SEED");

    uint64_t count = strtoull(word[2], NULL, 10);
    uint64_t seed = strtoull(word[3], NULL, 10);

    if (strcmp(word[1], "generated") == 0)
        put_generated(count, seed);
    else if (strcmp(word[1], "rising") == 0)
        put_rising(count);
    else if (strcmp(word[1], "random") != 0)
        return fail("no such ids");
    else if (!put_random(count, seed))
        return fail("out of memory");

    if (fflush(stdout) != 0 || ferror(stdout))
        return fail("the ids can't be written");
    return 0;
}
