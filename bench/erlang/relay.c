/* relay IN OUT: what a run of `cat_stream` takes at least with the project's threads and copies. Reads IN whole, starts `cat`, and lets IN through it: one thread
   offers copies of IN's pieces and fetches chunks, one writes the pieces to `cat`, and one reads, and copies what it read into a chunk. Four pieces and four chunks
   wait at most. The chunks are kept, and written to OUT, which must not be there. Prints the microseconds from the start of `cat` until it has ended and the threads
   with it, and until OUT is closed. */
#define _GNU_SOURCE
#include <fcntl.h>
#include <pthread.h>
#include <spawn.h>
#include <stdio.h>
#include <stdlib.h>
#include <string.h>
#include <sys/stat.h>
#include <sys/wait.h>
#include <time.h>
#include <unistd.h>

enum { CHUNK = 65536, MOST = 4 };

struct bytes { char *items; size_t count; };
struct queue { struct bytes parts[MOST]; int first, count; pthread_cond_t changed; };

static struct queue pieces = {.changed = PTHREAD_COND_INITIALIZER}, chunks = {.changed = PTHREAD_COND_INITIALIZER};
static pthread_mutex_t lock = PTHREAD_MUTEX_INITIALIZER;
static pthread_cond_t ready = PTHREAD_COND_INITIALIZER;
static int to[2], from[2];

static void put(struct queue *queue, struct bytes part) {
    queue->parts[(queue->first + queue->count++) % MOST] = part;
    pthread_cond_signal(&queue->changed);
}

static struct bytes take(struct queue *queue) {
    struct bytes part = queue->parts[queue->first];
    queue->first = (queue->first + 1) % MOST;
    queue->count--;
    pthread_cond_signal(&queue->changed);
    return part;
}

static struct bytes copy(const char *items, size_t count) {
    struct bytes part = {count ? malloc(count) : NULL, count};
    if (count) memcpy(part.items, items, count);
    return part;
}

/* Writes each piece until an empty one comes. */
static void *write_pieces(void *none) {
    for (;;) {
        pthread_mutex_lock(&lock);
        while (!pieces.count) pthread_cond_wait(&pieces.changed, &lock);
        struct bytes piece = take(&pieces);
        pthread_cond_signal(&ready);
        pthread_mutex_unlock(&lock);
        for (size_t at = 0; at < piece.count;) {
            ssize_t some = write(to[1], piece.items + at, piece.count - at);
            if (some <= 0) exit(2);
            at += some;
        }
        free(piece.items);
        if (!piece.count) return close(to[1]), none;
    }
}

/* Hands on what it reads, and an empty chunk at the end. */
static void *read_chunks(void *none) {
    static char buffer[CHUNK];
    for (ssize_t some = 1; some > 0;) {
        some = read(from[0], buffer, CHUNK);
        struct bytes chunk = copy(buffer, some > 0 ? some : 0);
        pthread_mutex_lock(&lock);
        while (chunks.count == MOST) pthread_cond_wait(&chunks.changed, &lock);
        put(&chunks, chunk);
        pthread_cond_signal(&ready);
        pthread_mutex_unlock(&lock);
    }
    return none;
}

/* Offers all of IN and an empty piece, and fetches until an empty chunk comes: how many chunks came before it. */
static size_t offer_and_fetch(const char *in, size_t size, struct bytes *kept) {
    size_t sent = 0, came = 0;
    for (int closed = 0;;) {
        pthread_mutex_lock(&lock);
        while (!chunks.count && (closed || pieces.count == MOST)) pthread_cond_wait(&ready, &lock);
        int has_room = !closed && pieces.count < MOST, has_chunk = chunks.count;
        if (has_chunk) kept[came] = take(&chunks);
        pthread_mutex_unlock(&lock);
        if (has_chunk && !kept[came].count) return came;
        came += has_chunk;
        if (has_room) {
            struct bytes piece = copy(in + sent, size - sent < CHUNK ? size - sent : CHUNK);
            pthread_mutex_lock(&lock);
            put(&pieces, piece);
            pthread_mutex_unlock(&lock);
            sent += piece.count;
            closed = !piece.count;
        }
    }
}

static double micros(void) {
    struct timespec now;
    clock_gettime(CLOCK_MONOTONIC, &now);
    return now.tv_sec * 1e6 + now.tv_nsec / 1e3;
}

int main(int count, char **words) {
    extern char **environ;
    struct stat found;
    int file = count == 3 ? open(words[1], O_RDONLY) : -1;
    if (file < 0 || fstat(file, &found)) return 1;
    size_t size = found.st_size;
    char *in = malloc(size), *cat[] = {"cat", NULL};
    struct bytes *kept = calloc(size + 1, sizeof *kept);
    for (size_t at = 0; at < size;) {
        ssize_t some = read(file, in + at, size - at);
        if (some <= 0) return 1;
        at += some;
    }
    double start = micros();
    if (pipe2(to, O_CLOEXEC) || pipe2(from, O_CLOEXEC)) return 1;
    pid_t child;
    pthread_t writer, reader;
    posix_spawn_file_actions_t ends;
    posix_spawn_file_actions_init(&ends);
    posix_spawn_file_actions_adddup2(&ends, to[0], 0);
    posix_spawn_file_actions_adddup2(&ends, from[1], 1);
    if (posix_spawnp(&child, "cat", &ends, NULL, cat, environ)) return 1;
    close(to[0]), close(from[1]);
    if (pthread_create(&writer, NULL, write_pieces, NULL) || pthread_create(&reader, NULL, read_chunks, NULL)) return 1;
    size_t came = offer_and_fetch(in, size, kept);
    waitpid(child, NULL, 0), pthread_join(writer, NULL), pthread_join(reader, NULL);
    double ran = micros() - start;
    int saved = open(words[2], O_WRONLY | O_CREAT | O_EXCL, 0644);
    for (size_t at = 0; at < came; at++)
        if (write(saved, kept[at].items, kept[at].count) != (ssize_t)kept[at].count) return 3;
    close(saved);
    printf("%.0f %.0f\n", ran, micros() - start);
    return 0;
}
