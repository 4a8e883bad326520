/* What the part lock of bench_parts does, as plain threads that add one to a counter under a plain mutex: lock THREADS TURNS. Standard output has
   the counter, standard error how many microseconds it took. */
#include <pthread.h>
#include <stdio.h>
#include <stdlib.h>
#include <time.h>

static pthread_mutex_t mutex = PTHREAD_MUTEX_INITIALIZER;
static volatile long counter;
static long turns;

static void *work(void *unused) {
    (void)unused;
    for (long i = 0; i < turns; i++) {
        pthread_mutex_lock(&mutex);
        counter++;
        pthread_mutex_unlock(&mutex);
    }
    return NULL;
}

int main(int count, char **words) {
    pthread_t threads[64];
    struct timespec a, b;
    if (count != 3) return 1;
    int n = atoi(words[1]);
    turns = atol(words[2]);
    if (n < 1 || n > 64) return 1;
    clock_gettime(CLOCK_MONOTONIC, &a);
    for (int i = 0; i < n; i++)
        if (pthread_create(&threads[i], NULL, work, NULL)) return 2;
    for (int i = 0; i < n; i++) pthread_join(threads[i], NULL);
    clock_gettime(CLOCK_MONOTONIC, &b);
    printf("%ld\n", counter);
    fprintf(stderr, "%ld\n", (b.tv_sec - a.tv_sec) * 1000000 + (b.tv_nsec - a.tv_nsec) / 1000);
    return 0;
}
