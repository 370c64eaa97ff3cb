// The work of bench/run.main without a board: sixteen threads raise 4,096 words each into a ring of 256 under a
// mutex, and one thread takes them, one in a hold, and writes a line of the log for each to standard output.
// To standard error: the words that were written, and the nanoseconds.
#include <pthread.h>
#include <stdint.h>
#include <stdio.h>
#include <stdlib.h>
#include <time.h>
#include <unistd.h>

enum { DEVICES = 16, WORDS = 4096, ROOM = 256 };

struct word {
    unsigned device;
    uint32_t value;
};

static struct {
    pthread_mutex_t lock;
    pthread_cond_t filled, freed;
    struct word words[ROOM];
    unsigned first, count;
} ring = {.lock = PTHREAD_MUTEX_INITIALIZER, .filled = PTHREAD_COND_INITIALIZER, .freed = PTHREAD_COND_INITIALIZER};

static void put(struct word w) {
    pthread_mutex_lock(&ring.lock);
    while (ring.count == ROOM)
        pthread_cond_wait(&ring.freed, &ring.lock);
    ring.words[(ring.first + ring.count++) % ROOM] = w;
    pthread_cond_signal(&ring.filled);
    pthread_mutex_unlock(&ring.lock);
}

static struct word take(void) {
    pthread_mutex_lock(&ring.lock);
    while (ring.count == 0)
        pthread_cond_wait(&ring.filled, &ring.lock);
    struct word w = ring.words[ring.first];
    ring.first = (ring.first + 1) % ROOM;
    ring.count--;
    pthread_cond_signal(&ring.freed);
    pthread_mutex_unlock(&ring.lock);
    return w;
}

static void *device(void *number) {
    for (uint32_t k = 0; k < WORDS; k++)
        put((struct word){.device = (unsigned)(uintptr_t)number, .value = k % 256});
    return NULL;
}

// writes `I d hhhhhhhh`
static void write_line(struct word w) {
    char line[16];
    int at = 0;
    line[at++] = 'I';
    line[at++] = ' ';
    if (w.device >= 10)
        line[at++] = '1';
    line[at++] = (char)('0' + w.device % 10);
    line[at++] = ' ';
    for (int shift = 28; shift >= 0; shift -= 4)
        line[at++] = "0123456789abcdef"[w.value >> shift & 15];
    line[at++] = '\n';
    if (write(STDOUT_FILENO, line, (size_t)at) != at)
        exit(4);
}

static uint64_t nanoseconds(void) {
    struct timespec now;
    clock_gettime(CLOCK_MONOTONIC, &now);
    return (uint64_t)now.tv_sec * 1000000000u + (uint64_t)now.tv_nsec;
}

int main(void) {
    pthread_t threads[DEVICES];
    uint64_t start = nanoseconds();
    for (uintptr_t d = 0; d < DEVICES; d++)
        if (pthread_create(&threads[d], NULL, device, (void *)d) != 0)
            return 5;
    for (unsigned n = 0; n < DEVICES * WORDS; n++)
        write_line(take());
    for (unsigned d = 0; d < DEVICES; d++)
        pthread_join(threads[d], NULL);
    fprintf(stderr, "%d %llu\n", DEVICES * WORDS, (unsigned long long)(nanoseconds() - start));
    return 0;
}
