/* Many sheets through the library from C, in one process with several threads of the caller's, for bench/src: the
   library has no state, so that threads need nothing of each other. */
#include "hechroung.h"
#include <pthread.h>
#include <time.h>

enum { MOST_THREADS = 8 };

/* A thread's sheets: every `stride`th of the row, from `first` on. The row is gone through `rounds` times. */
struct share {
    const uint8_t *const *sheets;
    const size_t *lengths;
    size_t count, first, stride, rounds;
    uint64_t sum;
};

/* All that a run answers, as one number that any other answer is most likely to change. */
static uint64_t folded(uint8_t refusal, const struct hechroung_summary *answer) {
    uint64_t sum = refusal;
    for (size_t t = 0; t < HECHROUNG_MOST_TERMS; t++)
        sum = sum * 31 + (uint64_t)answer->model.coefficients[t] + ((uint64_t)answer->model.keys[t] << 32);
    sum = sum * 31 + answer->model.radius;
    sum = sum * 31 + (uint64_t)answer->range.low;
    sum = sum * 31 + (uint64_t)answer->range.high;
    sum = sum * 31 + (uint64_t)answer->integral.low;
    return sum * 31 + (uint64_t)answer->integral.high;
}

static void *run_share(void *given) {
    struct share *s = given;
    struct hechroung_summary answer = {0};
    uint64_t sum = 0;
    for (size_t round = 0; round < s->rounds; round++)
        for (size_t i = s->first; i < s->count; i += s->stride) {
            const uint8_t refusal = hechroung_run_sheet(s->sheets[i], s->lengths[i], &answer, NULL);
            sum += folded(refusal, &answer);
        }
    s->sum = sum;
    return NULL;
}

/* Runs each sheet `rounds` times, divided among so many threads; the seconds that all of it took, or a negative number
   where a thread could not be started. The sum over all answers does not depend on how they are divided. */
double bench_throughput(const uint8_t *const *sheets, const size_t *lengths, size_t count, size_t rounds,
                        size_t threads, uint64_t *sum) {
    struct share shares[MOST_THREADS];
    pthread_t started[MOST_THREADS];
    struct timespec before, after;
    if (threads < 1 || threads > MOST_THREADS) return -1;
    clock_gettime(CLOCK_MONOTONIC, &before);
    for (size_t t = 0; t < threads; t++) {
        shares[t] = (struct share){sheets, lengths, count, t, threads, rounds, 0};
        if (pthread_create(&started[t], NULL, run_share, &shares[t]) != 0) return -1;
    }
    *sum = 0;
    for (size_t t = 0; t < threads; t++) {
        if (pthread_join(started[t], NULL) != 0) return -1;
        *sum += shares[t].sum;
    }
    clock_gettime(CLOCK_MONOTONIC, &after);
    return (double)(after.tv_sec - before.tv_sec) + (double)(after.tv_nsec - before.tv_nsec) / 1e9;
}
