/* What a boundary costs in C, for comparison with crates/spmd_workers: P threads pass PHASES boundaries
 * in a row, and each stores one word in between. Words lie on lines of their own; all steps are
 * sequentially consistent atomics.
 *
 *     boundaries P PHASES KIND
 *
 * KIND is `barrier` (one word that all add to and look at), `signals` (a dissemination barrier: in
 * round r each sets its own word and awaits that of the thread 2^r before it), `both`, `left` (each
 * awaits the counters of its neighbours, or of the one before it) or `producer` (all others await
 * thread 0). A wait spins, and yields its processor once in 100 looks. It writes the nanoseconds of
 * a boundary.
 */
#include <pthread.h>
#include <sched.h>
#include <stdatomic.h>
#include <stdint.h>
#include <stdio.h>
#include <stdlib.h>
#include <string.h>
#include <time.h>

enum { MOST_THREADS = 64, SPINS = 100 };

typedef struct {
    _Alignas(64) _Atomic uint64_t word;
} Line;

static Line counters[MOST_THREADS], cells[MOST_THREADS], arrivals, started;
static int threads;
static uint64_t phases;
static const char *kind;

static void await(Line *line, uint64_t wanted)
{
    for (unsigned misses = 1; atomic_load(&line->word) < wanted; misses++) {
        if (misses % SPINS == 0)
            sched_yield();
        else
            __builtin_ia32_pause();
    }
}

static void *work(void *which)
{
    int p = (int)(intptr_t)which;
    uint64_t rounds = 0;
    atomic_fetch_add(&started.word, 1);
    await(&started, (uint64_t)threads);
    for (uint64_t e = 1; e <= phases; e++) {
        if (strcmp(kind, "barrier") == 0) {
            atomic_fetch_add(&arrivals.word, 1);
            await(&arrivals, (uint64_t)threads * e);
        } else if (strcmp(kind, "signals") == 0) {
            for (int back = 1; back < threads; back *= 2) {
                atomic_store(&counters[p].word, ++rounds);
                await(&counters[(p + threads - back) % threads], rounds);
            }
        } else if (strcmp(kind, "producer") == 0) {
            if (p == 0)
                atomic_store(&counters[0].word, e);
            else
                await(&counters[0], e);
        } else {
            atomic_store(&counters[p].word, e);
            if (p > 0)
                await(&counters[p - 1], e);
            if (p + 1 < threads && strcmp(kind, "both") == 0)
                await(&counters[p + 1], e);
        }
        atomic_store(&cells[p].word, e);
    }
    return NULL;
}

int main(int count, char **words)
{
    pthread_t handles[MOST_THREADS];
    struct timespec begun, ended;
    if (count != 4 || (threads = atoi(words[1])) < 1 || threads > MOST_THREADS || (phases = strtoull(words[2], NULL, 10)) < 1) {
        fprintf(stderr, "usage: boundaries P PHASES barrier|signals|both|left|producer\n");
        return 2;
    }
    kind = words[3];
    clock_gettime(CLOCK_MONOTONIC, &begun);
    for (int p = 1; p < threads; p++)
        if (pthread_create(&handles[p], NULL, work, (void *)(intptr_t)p) != 0)
            return 1;
    work((void *)(intptr_t)0);
    for (int p = 1; p < threads; p++)
        pthread_join(handles[p], NULL);
    clock_gettime(CLOCK_MONOTONIC, &ended);
    printf("%.1f\n", ((double)(ended.tv_sec - begun.tv_sec) * 1e9 + (double)(ended.tv_nsec - begun.tv_nsec)) / (double)phases);
    return 0;
}
