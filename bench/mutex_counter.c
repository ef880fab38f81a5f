// The peer of bench/history: a counter behind a pthread mutex, raised by many threads.
// mutex_counter THREADS CALLS: each thread makes CALLS / THREADS calls. Prints the calls a second.
#include <pthread.h>
#include <stdint.h>
#include <stdio.h>
#include <stdlib.h>
#include <time.h>

static pthread_mutex_t lock = PTHREAD_MUTEX_INITIALIZER;
static uint64_t counter;

static void *raise_counter(void *times) {
    for (uint64_t k = 0; k < *(uint64_t *)times; k++) {
        pthread_mutex_lock(&lock);
        counter++;
        pthread_mutex_unlock(&lock);
    }
    return NULL;
}

int main(int argc, char **argv) {
    if (argc != 3) return 2;
    uint64_t threads = strtoull(argv[1], NULL, 10), calls = strtoull(argv[2], NULL, 10);
    uint64_t each = calls / threads;
    pthread_t *ids = calloc(threads, sizeof *ids);
    struct timespec start, end;
    clock_gettime(CLOCK_MONOTONIC, &start);
    for (uint64_t k = 0; k < threads; k++)
        if (pthread_create(&ids[k], NULL, raise_counter, &each) != 0) return 1;
    for (uint64_t k = 0; k < threads; k++) pthread_join(ids[k], NULL);
    clock_gettime(CLOCK_MONOTONIC, &end);
    double seconds = (double)(end.tv_sec - start.tv_sec) + (double)(end.tv_nsec - start.tv_nsec) / 1e9;
    if (counter != each * threads) return 1;
    printf("%.0f\n", (double)counter / seconds);
    return 0;
}
