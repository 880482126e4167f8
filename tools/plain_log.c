/* Appends transactions to a new store, in the format of docs/FORMAT.md, plainly: what tools/bench-peers times the program beside.

   plain_log FOLDER COMMITS THREADS LENGTH

   Makes FOLDER, and in it the store of COMMITS transactions by so many threads, each of one entry: a key of its own and a value of
   LENGTH octets. There is one value log, and no tree. Each transaction is durable before its thread places the next one. A thread that
   finds nobody writing takes all that was placed as a batch, and writes it by the calls that docs/JOURNAL.md tells. The standard output
   gets the number of batches. */
#define _GNU_SOURCE
#include "sha256.h"
#include <fcntl.h>
#include <pthread.h>
#include <stdio.h>
#include <stdlib.h>
#include <sys/stat.h>
#include <time.h>
#include <unistd.h>

typedef struct { uint8_t *at; size_t length, room; } Octets;
typedef struct { Octets values, records; uint64_t first, count; } Batch;

enum { RECORDS, GATES, VALUES, FILES };

static pthread_mutex_t lock = PTHREAD_MUTEX_INITIALIZER;
static pthread_cond_t moved = PTHREAD_COND_INITIALIZER;
/* Under the lock: what was placed behind the last batch, how many transactions were placed and are durable, where the values of what
   was placed end, the Alh of the last one, and whether a thread writes a batch. */
static Batch next, spare;
static uint64_t placed, durable, values_placed;
static D alh;
static int writing;
/* Of the thread that writes: the batches, and where they end. */
static uint64_t batches, records_end, values_end;
static int files[FILES];

static uint64_t commits, threads, length;
static uint8_t *value;

static void must(int holds, const char *what) {
    if (holds) return;
    perror(what);
    exit(1);
}

static uint8_t *put(uint8_t *to, uint64_t number, int octets) {
    for (int i = octets - 1; i >= 0; i--, number >>= 8) to[i] = (uint8_t)number;
    return to + octets;
}

static uint8_t *put_octets(uint8_t *to, const void *from, size_t count) { return (uint8_t *)memcpy(to, from, count) + count; }

static void append(Octets *to, const uint8_t *from, size_t count) {
    if (to->room - to->length < count) {
        to->room = 2 * to->room + count;
        must((to->at = realloc(to->at, to->room)) != 0, "memory");
    }
    memcpy(to->at + to->length, from, count);
    to->length += count;
}

static void write_at(int file, const uint8_t *from, size_t count, uint64_t place) {
    must(pwrite(files[file], from, count, (off_t)place) == (ssize_t)count, "write");
}

static void sync_file(int file) { must(fdatasync(files[file]) == 0, "sync"); }

/* The Alh of a transaction of one entry over an empty tree; `entry` is what the digest of its entry is of. */
static D next_alh(uint64_t id, uint64_t now, const uint8_t *entry, size_t entry_length) {
    uint8_t text[33 + 88 + 72] = {0}, *inner = text + 33, *outer = inner + 88;
    D digest = sha256(entry, entry_length);
    put_octets(text + 1, digest.b, 32);
    D root = sha256(text, 33);
    put(put_octets(put(put(put(put(inner, now, 8), 1, 2), 0, 2), 1, 4), root.b, 32), 0, 8);
    digest = sha256(inner, 88);
    put_octets(put_octets(put(outer, id, 8), alh.b, 32), digest.b, 32);
    return sha256(outer, 72);
}

/* Places a transaction under the lock. */
static uint64_t place(const char *key, const D *digest) {
    uint8_t record[256], *entry = record + 28;
    uint64_t id = ++placed, now = (uint64_t)time(0);
    put(put(put(put(record, id, 8), now, 8), 0, 8), 1, 4);
    uint8_t *to = put_octets(put(put(entry, 0, 2), strlen(key), 2), key, strlen(key));
    to = put_octets(to, digest->b, 32);
    alh = next_alh(id, now, entry, (size_t)(to - entry));
    to = put(put(put(to, length, 4), 0, 1), values_placed, 8);
    to = put_octets(to, alh.b, 32);
    append(&next.records, record, (size_t)(to - record));
    append(&next.values, value, length);
    values_placed += length;
    if (!next.count++) next.first = id;
    return id;
}

/* Stage, seal, gate, settle. */
static void write_batch(const Batch *batch) {
    uint8_t fields[25], open = 1;
    if (batch->values.length) write_at(VALUES, batch->values.at, batch->values.length, values_end);
    write_at(RECORDS, batch->records.at, batch->records.length, records_end);
    values_end += batch->values.length, records_end += batch->records.length;
    put(put(put(put(fields, batch->first, 8), batch->count, 8), records_end, 8), 0, 1);
    write_at(GATES, fields, 25, 25 * batches + 1);
    sync_file(RECORDS), sync_file(GATES);
    if (batch->values.length) sync_file(VALUES);
    write_at(GATES, &open, 1, 25 * batches++);
    sync_file(GATES);
}

/* Writes all that was placed, as a batch. The lock is let go of meanwhile. */
static void write_placed(void) {
    Batch batch = next;
    uint64_t last = placed;
    next = spare, writing = 1;
    pthread_mutex_unlock(&lock);
    write_batch(&batch);
    pthread_mutex_lock(&lock);
    batch.values.length = batch.records.length = batch.count = 0;
    spare = batch, writing = 0, durable = last;
    pthread_cond_broadcast(&moved);
}

static void *commit_share(void *number) {
    for (uint64_t i = (uintptr_t)number; i < commits; i += threads) {
        char key[24];
        snprintf(key, sizeof key, "k%llu", (unsigned long long)i);
        D digest = sha256(value, length);
        pthread_mutex_lock(&lock);
        uint64_t id = place(key, &digest);
        while (durable < id)
            if (writing) pthread_cond_wait(&moved, &lock);
            else write_placed();
        pthread_mutex_unlock(&lock);
    }
    return 0;
}

static void make_files(const char *folder) {
    uint8_t closed = 0;
    must(mkdir(folder, 0777) == 0, folder);
    int made = open(folder, O_RDONLY | O_DIRECTORY);
    must(made >= 0, folder);
    for (int i = 0; i < FILES; i++) {
        char name[2] = {(char)('0' + i), 0};
        must((files[i] = openat(made, name, O_WRONLY | O_CREAT | O_EXCL, 0666)) >= 0, name);
    }
    write_at(GATES, &closed, 1, 0);
    sync_file(GATES);
    must(fsync(made) == 0, folder);
}

int main(int argc, char **argv) {
    if (argc != 5) return 2;
    commits = strtoull(argv[2], 0, 10), threads = strtoull(argv[3], 0, 10), length = strtoull(argv[4], 0, 10);
    if (threads < 1 || threads > 64 || length > 4096) return 2;
    must((value = malloc(length + 1)) != 0, "memory");
    memset(value, 'v', length);
    alh = sha256(0, 0);
    make_files(argv[1]);
    pthread_t running[64];
    for (uint64_t i = 1; i < threads; i++) must(pthread_create(&running[i], 0, commit_share, (void *)(uintptr_t)i) == 0, "thread");
    commit_share(0);
    for (uint64_t i = 1; i < threads; i++) pthread_join(running[i], 0);
    printf("%llu\n", (unsigned long long)batches);
    return 0;
}
