// How a thread may wait for its turn at a ticket lock, measured: by spinning alone, by spinning and then yielding the processor,
// or by spinning and then sleeping until a turn ends (what a seat of a key lock does once it has yielded a few times).
//
// Each of THREADS threads takes TURNS turns at KEYS locks, in an order of its own, and works ROUNDS rounds of a small loop
// inside of the turn and as many outside. Prints for each WAY, which is spin, yield or sleep, the seconds from start to end and
// the processor seconds, the middle ones of five tries. It has the form of the key lock in C, and stands outside of the gate.
//
//     cc -O2 -pthread tools/waiting.c -o /tmp/waiting && /tmp/waiting THREADS KEYS TURNS ROUNDS WAY..
#include <linux/futex.h>
#include <pthread.h>
#include <sched.h>
#include <stdatomic.h>
#include <stdio.h>
#include <stdlib.h>
#include <string.h>
#include <sys/resource.h>
#include <sys/syscall.h>
#include <time.h>
#include <unistd.h>

enum { TRIES = 5 };

enum way { SPIN, YIELD, SLEEP };

static const char *NAMES[] = {"spin", "yield", "sleep"};

struct lock {
    _Alignas(128) atomic_uint next;
    atomic_uint served;
    atomic_uint sleepers;
    volatile unsigned long cell;
};

static struct lock *locks;
static enum way way;
static unsigned threads, keys, turns, rounds;

static void spin(unsigned count) {
    for (unsigned i = 0; i < count; i++)
        __builtin_ia32_pause();
}

static void sleep_until_served(struct lock *lock, unsigned seen) {
    atomic_fetch_add(&lock->sleepers, 1);
    syscall(SYS_futex, &lock->served, FUTEX_WAIT_PRIVATE, seen, NULL, NULL, 0);
    atomic_fetch_sub(&lock->sleepers, 1);
}

static void wait_for(struct lock *lock, unsigned ticket) {
    unsigned step = 0;
    for (;;) {
        unsigned seen = atomic_load(&lock->served);
        if (seen == ticket)
            return;
        if (step <= 6 || way == SPIN)
            spin(1u << (step < 6 ? step : 6));
        else if (way == YIELD)
            sched_yield();
        else
            sleep_until_served(lock, seen);
        step++;
    }
}

static void work(volatile unsigned long *cell) {
    for (unsigned i = 0; i < rounds; i++)
        *cell += i;
}

static void *takes_turns(void *number) {
    unsigned long place = (unsigned long)number * 2654435761u;
    volatile unsigned long own = 0;
    for (unsigned i = 0; i < turns; i++) {
        place = place * 6364136223846793005ul + 1442695040888963407ul;
        struct lock *lock = &locks[(place >> 33) % keys];
        unsigned ticket = atomic_fetch_add(&lock->next, 1);
        wait_for(lock, ticket);
        work(&lock->cell);
        atomic_store(&lock->served, ticket + 1);
        if (way == SLEEP && atomic_load(&lock->sleepers) > 0)
            syscall(SYS_futex, &lock->served, FUTEX_WAKE_PRIVATE, 1 << 30, NULL, NULL, 0);
        work(&own);
    }
    return NULL;
}

static double elapsed(void) {
    struct timespec now;
    clock_gettime(CLOCK_MONOTONIC, &now);
    return now.tv_sec + now.tv_nsec * 1e-9;
}

static double processor(void) {
    struct rusage used;
    getrusage(RUSAGE_SELF, &used);
    return used.ru_utime.tv_sec + used.ru_stime.tv_sec + (used.ru_utime.tv_usec + used.ru_stime.tv_usec) * 1e-6;
}

static void once(double *time, double *busy) {
    pthread_t *all = malloc(threads * sizeof *all);
    double from = elapsed(), used = processor();
    for (unsigned long i = 0; i < threads; i++)
        pthread_create(&all[i], NULL, takes_turns, (void *)i);
    for (unsigned i = 0; i < threads; i++)
        pthread_join(all[i], NULL);
    *time = elapsed() - from;
    *busy = processor() - used;
    free(all);
}

static int compare(const void *a, const void *b) {
    double x = *(const double *)a, y = *(const double *)b;
    return (x > y) - (x < y);
}

static void measure(void) {
    double time[TRIES], busy[TRIES];
    for (int i = 0; i < TRIES; i++)
        once(&time[i], &busy[i]);
    qsort(time, TRIES, sizeof *time, compare);
    qsort(busy, TRIES, sizeof *busy, compare);
    printf("%-5s %8.3f s from start to end %8.3f processor seconds\n", NAMES[way], time[TRIES / 2], busy[TRIES / 2]);
}

int main(int count, char **words) {
    if (count < 6)
        return 1;
    threads = atoi(words[1]), keys = atoi(words[2]), turns = atoi(words[3]), rounds = atoi(words[4]);
    locks = aligned_alloc(128, keys * sizeof *locks);
    for (unsigned i = 0; i < keys; i++)
        locks[i] = (struct lock){0};
    printf("%u threads, %u keys, %u turns each, %u rounds of work\n", threads, keys, turns, rounds);
    for (int i = 5; i < count; i++)
        for (way = SPIN; way <= SLEEP; way++)
            if (strcmp(words[i], NAMES[way]) == 0)
                measure();
    return 0;
}
