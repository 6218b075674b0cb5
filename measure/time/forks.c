// When four threads begin that are made in different ways, and how long it takes until all have worked.
#include <pthread.h>
#include <stdio.h>
#include <stdlib.h>
#include <time.h>

enum { THREADS = 4, ROUNDS = 200, WORK = 1800, PAUSE = 300 };

static double begin;
static double begins[THREADS];

static double now(void) {
    struct timespec at;
    clock_gettime(CLOCK_MONOTONIC, &at);
    return at.tv_sec * 1e6 + at.tv_nsec / 1e3;
}

static void spin(double microseconds) {
    for (double end = now() + microseconds; now() < end;) {
    }
}

static void work(long place) {
    begins[place] = now() - begin;
    spin(WORK);
}

static void *one(void *place) {
    work((long)place);
    return 0;
}

static pthread_t made(void *(*body)(void *), long place) {
    pthread_t thread;
    if (pthread_create(&thread, 0, body, (void *)place) != 0) {
        exit(1);
    }
    return thread;
}

// One of a half's two in a new thread, and the other here.
static void *half(void *place) {
    pthread_t thread = made(one, (long)place);
    work((long)place + 1);
    pthread_join(thread, 0);
    return 0;
}

static void by_halves(void) {
    pthread_t thread = made(half, 0);
    half((void *)2);
    pthread_join(thread, 0);
}

// Each but `own` in a new thread, and those here.
static void by_one(long own) {
    pthread_t threads[THREADS];
    for (long place = 0; place < THREADS - own; place++) {
        threads[place] = made(one, place);
    }
    for (long place = THREADS - own; place < THREADS; place++) {
        work(place);
    }
    for (long place = 0; place < THREADS - own; place++) {
        pthread_join(threads[place], 0);
    }
}

static int compare(const void *a, const void *b) {
    double x = *(const double *)a, y = *(const double *)b;
    return (x > y) - (x < y);
}

static void measure(int way, const char *name) {
    double sums[THREADS] = {0}, all = 0;
    for (int round = 0; round < ROUNDS; round++) {
        begin = now();
        if (way == 0) {
            by_halves();
        } else {
            by_one(way == 1);
        }
        all += now() - begin;
        qsort(begins, THREADS, sizeof *begins, compare);
        for (int place = 0; place < THREADS; place++) {
            sums[place] += begins[place];
        }
        spin(PAUSE);
    }
    printf("%-34s begin after", name);
    for (int place = 0; place < THREADS; place++) {
        printf(" %.0f", sums[place] / ROUNDS);
    }
    printf(" us, all %.0f us\n", all / ROUNDS);
}

int main(void) {
    measure(0, "by halves, each maker works");
    measure(1, "one by one, their maker works");
    measure(2, "one by one, their maker waits");
}
