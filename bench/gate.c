/*
 * What a round at the gate costs on two threads at once, in plain C.
 *
 *     gate [rounds]
 *
 * A round is three atomic steps: enter (one is added to the word of era and count), draw a place (one is added to the
 * order word), leave (one is taken from the first word again). Before and behind each step stands a load of its word,
 * so there are six. All of it is sequentially consistent, and both words stand beside each other, as in one table.
 *
 * It answers one line: the nanoseconds of a round, median and spread of nine turns. The program's gate makes the same
 * steps; docs/PERFORMANCE.md tells what it took beside this.
 */
#include <pthread.h>
#include <stdatomic.h>
#include <stdint.h>
#include <stdio.h>
#include <stdlib.h>
#include <time.h>

enum { THREADS = 2, TURNS = 9, ERA_AND_COUNT = 0, ORDER = 1, WORDS = 2 };

static _Alignas(64) _Atomic uint64_t table[WORDS];
static pthread_barrier_t barrier;
static uint64_t rounds = 1000000;

/* Adds to a word, between two loads of it. What is loaded is summed, so that no load can be left out. */
static uint64_t step(int word, uint64_t change, uint64_t *seen)
{
    *seen += atomic_load(&table[word]);
    uint64_t found = atomic_fetch_add(&table[word], change);
    *seen += atomic_load(&table[word]);
    return found;
}

static void *walk(void *nothing)
{
    uint64_t seen = (uintptr_t)nothing;
    pthread_barrier_wait(&barrier);
    for (uint64_t i = 0; i < rounds; i++) {
        uint64_t era = step(ERA_AND_COUNT, 1, &seen) >> 32;
        uint64_t place = step(ORDER, 1, &seen);
        step(ERA_AND_COUNT, -UINT64_C(1), &seen);
        seen += era + place;
    }
    pthread_barrier_wait(&barrier);
    return (void *)(uintptr_t)seen;
}

static double turn(void)
{
    pthread_t threads[THREADS];
    struct timespec begun, ended;
    pthread_barrier_init(&barrier, NULL, THREADS + 1);
    for (int i = 0; i < THREADS; i++)
        if (pthread_create(&threads[i], NULL, walk, NULL) != 0)
            exit(1);
    pthread_barrier_wait(&barrier);
    clock_gettime(CLOCK_MONOTONIC, &begun);
    pthread_barrier_wait(&barrier);
    clock_gettime(CLOCK_MONOTONIC, &ended);
    for (int i = 0; i < THREADS; i++)
        pthread_join(threads[i], NULL);
    pthread_barrier_destroy(&barrier);
    return ((double)(ended.tv_sec - begun.tv_sec) * 1e9 + (double)(ended.tv_nsec - begun.tv_nsec)) / (double)rounds;
}

static int by_value(const void *a, const void *b)
{
    double x = *(const double *)a, y = *(const double *)b;
    return (x > y) - (x < y);
}

int main(int count, char **words)
{
    double spent[TURNS];
    if (count > 1)
        rounds = strtoull(words[1], NULL, 10);
    if (count > 2 || rounds == 0) {
        fputs("usage: gate [rounds]\n", stderr);
        return 2;
    }
    atomic_store(&table[ERA_AND_COUNT], UINT64_C(1) << 32);
    for (int i = 0; i < TURNS; i++)
        spent[i] = turn();
    if (atomic_load(&table[ERA_AND_COUNT]) != UINT64_C(1) << 32
        || atomic_load(&table[ORDER]) != rounds * THREADS * TURNS) {
        fputs("gate: a step was lost\n", stderr);
        return 1;
    }
    qsort(spent, TURNS, sizeof spent[0], by_value);
    printf("%.1f (%.1f to %.1f)\n", spent[TURNS / 2], spent[0], spent[TURNS - 1]);
    return 0;
}
