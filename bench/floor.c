/* floor NUMBER [THREADS]: what the commands of `gateway load NUMBER` take at least on one thread, or dealt to two or four, with records as large as the project's and lists with room for them.
   Each command has its bytes shared, its receipt kept, its parcel put into a lane of blocks and taken out; then an effect is allocated and a row kept, and
   its mail is put into a mailbox, taken out and kept. No driver is called, nothing is looked at, and nobody waits. Each of several threads has its processes and ports for itself, to which
   alone its processes send. Prints the microseconds from the start of the first thread to the end of the last. */
#include <pthread.h>
#include <stdint.h>
#include <stdio.h>
#include <stdlib.h>
#include <string.h>
#include <time.h>

enum { PROCESSES = 8, PORTS = 4, COMMANDS = 2000, SHARE = PROCESSES * COMMANDS / PORTS * 9 / 8, TURN = 8, BLOCK = 31, PARCEL = 96, ROW = 160, EFFECT = 64, MAIL = 64, RECEIPT = 64 };

struct list { char *items; size_t count, room; };
struct block { struct block *next; char items[]; };
struct lane { struct block *first, *last; uint64_t head, tail; };
struct shared { uint64_t users; uint64_t size; char bytes[]; };

static void reserve(struct list *list, size_t room, size_t size) {
    if (!(list->items = malloc(room * size))) exit(1);
    list->room = room;
}

static void keep(struct list *list, const void *item, size_t size) {
    if (list->count == list->room) exit(3);
    memcpy(list->items + list->count++ * size, item, size);
}

static void put(struct lane *lane, const void *item, size_t size) {
    uint64_t at = __atomic_fetch_add(&lane->tail, 1, __ATOMIC_SEQ_CST) % BLOCK;
    if (at == 0) {
        struct block *next = malloc(sizeof *next + BLOCK * size);
        if (!next) exit(1);
        next->next = NULL;
        if (lane->last) lane->last->next = next;
        else lane->first = next;
        lane->last = next;
    }
    memcpy(lane->last->items + at * size, item, size);
}

static int take(struct lane *lane, void *item, size_t size) {
    if (lane->head == __atomic_load_n(&lane->tail, __ATOMIC_SEQ_CST)) return 0;
    uint64_t at = __atomic_fetch_add(&lane->head, 1, __ATOMIC_SEQ_CST) % BLOCK;
    memcpy(item, lane->first->items + at * size, size);
    if (at == BLOCK - 1) {
        struct block *done = lane->first;
        lane->first = done->next;
        if (!lane->first) lane->last = NULL;
        free(done);
    }
    return 1;
}

static struct { struct shared *bytes; uint64_t chosen; } commands[PROCESSES][COMMANDS];
static struct list receipts[PROCESSES], rows[PORTS], mails[PORTS];
static struct lane lanes[PORTS], mailboxes[PORTS];
static uint64_t words_of[PORTS][2];
static int threads = 1;

/* The commands, their bytes and where they go, made before anything is timed. */
static void make_commands(uint64_t x) {
    for (int process = 0; process < PROCESSES; process++)
        for (int at = 0; at < COMMANDS; at++) {
            x = x * 6364136223846793005u + 1442695040888963407u;
            uint64_t size = 1 + (x >> 40) % 64;
            struct shared *bytes = malloc(sizeof *bytes + size);
            if (!bytes) exit(1);
            bytes->users = 1, bytes->size = size;
            memset(bytes->bytes, 'a' + process, size);
            commands[process][at].bytes = bytes, commands[process][at].chosen = x >> 33;
        }
    for (int process = 0; process < PROCESSES; process++) reserve(&receipts[process], COMMANDS, RECEIPT);
    for (int port = 0; port < PORTS; port++) reserve(&rows[port], SHARE, ROW), reserve(&mails[port], SHARE, MAIL);
}

static void send(int process, int port, struct shared *bytes) {
    char parcel[PARCEL] = {0}, receipt[RECEIPT] = {0};
    __atomic_fetch_add(&bytes->users, 1, __ATOMIC_SEQ_CST);
    memcpy(parcel, &bytes, sizeof bytes);
    uint64_t stat = __atomic_load_n(&words_of[port][0], __ATOMIC_SEQ_CST);
    uint64_t queued = __atomic_fetch_add(&words_of[port][1], bytes->size, __ATOMIC_SEQ_CST);
    memcpy(receipt, &stat, sizeof stat), memcpy(receipt + 8, &queued, sizeof queued);
    put(&lanes[port], parcel, PARCEL);
    keep(&receipts[process], receipt, RECEIPT);
}

static void serve(int port) {
    char parcel[PARCEL], row[ROW] = {0}, mail[MAIL] = {0};
    while (take(&lanes[port], parcel, PARCEL)) {
        struct shared *bytes;
        memcpy(&bytes, parcel, sizeof bytes);
        __atomic_fetch_sub(&words_of[port][1], bytes->size, __ATOMIC_SEQ_CST);
        char *effect = calloc(1, EFFECT);
        if (!effect) exit(1);
        __atomic_fetch_add(&bytes->users, 1, __ATOMIC_SEQ_CST);
        memcpy(effect, &bytes, sizeof bytes);
        memcpy(row, parcel, PARCEL), memcpy(row + PARCEL, &effect, sizeof effect);
        keep(&rows[port], row, ROW);
        __atomic_fetch_add(&bytes->users, 1, __ATOMIC_SEQ_CST);
        memcpy(mail, &bytes, sizeof bytes);
        put(&mailboxes[port], mail, MAIL);
    }
    while (take(&mailboxes[port], mail, MAIL)) keep(&mails[port], mail, MAIL);
}

/* The part of a thread: its share of the processes and of the ports, by turns. */
static void *work(void *number) {
    int part = (int)(intptr_t)number, processes = PROCESSES / threads, ports = PORTS / threads;
    for (int at = 0; at < COMMANDS; at += TURN) {
        for (int process = part * processes; process < (part + 1) * processes; process++)
            for (int next = at; next < at + TURN; next++)
                send(process, part * ports + (int)(commands[process][next].chosen % ports), commands[process][next].bytes);
        for (int port = part * ports; port < (part + 1) * ports; port++) serve(port);
    }
    return NULL;
}

int main(int count, char **words) {
    threads = count > 2 ? atoi(words[2]) : 1;
    if (threads != 1 && threads != 2 && threads != 4) return 4;
    make_commands(count > 1 ? strtoull(words[1], NULL, 10) : 7);
    struct timespec from, to;
    pthread_t others[PORTS];
    clock_gettime(CLOCK_MONOTONIC, &from);
    for (int part = 1; part < threads; part++)
        if (pthread_create(&others[part], NULL, work, (void *)(intptr_t)part)) return 1;
    work(NULL);
    for (int part = 1; part < threads; part++) pthread_join(others[part], NULL);
    clock_gettime(CLOCK_MONOTONIC, &to);
    size_t came = 0;
    for (int port = 0; port < PORTS; port++) came += mails[port].count;
    if (came != PROCESSES * COMMANDS) return 2;
    printf("%.0f\n", (to.tv_sec - from.tv_sec) * 1e6 + (to.tv_nsec - from.tv_nsec) / 1e3);
    return 0;
}
