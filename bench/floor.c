/* The least that three outputs cost: the system calls of a tee of FLV, MPEG-TS and ADTS, and nothing beside them.
 *
 * usage: floor INPUT FOLDER [threads | rings]
 *
 * Reads the FLV file INPUT in pieces of 65536 bytes, and keeps each tag's kind and size alone. Then it makes one write a packet and
 * output: for each tag one of its own length and one of whole cells of 188 bytes, for sound one of an ADTS frame's length too (so a
 * script counts as a packet). The bytes written are always the same few; only their count is right. With `threads` each output's writes are
 * made by a thread of its own, which shares nothing with the others. What it takes is about the least of a program that hands each
 * packet to the system before the next.
 * With `rings` the main thread goes through the tags and gives each output's thread a message for each of its packets, through a ring
 * of 60 places. A message is as long as a packet with its index; nothing of it is counted, and no side looks at the other's end of
 * the ring before it must.
 */
#include <fcntl.h>
#include <pthread.h>
#include <sched.h>
#include <stdatomic.h>
#include <stdint.h>
#include <stdio.h>
#include <stdlib.h>
#include <string.h>
#include <sys/stat.h>
#include <time.h>
#include <unistd.h>

enum { PIECE = 65536, FILE_HEAD = 13, TAG_HEAD = 11, TAG_SIZE = 4, SOUND = 8, CELL = 188, CELL_PAYLOAD = 184, PES_HEAD = 32 };
enum { PLACES = 60, SPINS = 4, YIELDS = 2, LINE = 128 }; /* of rings: LINE bytes hold what no other thread writes */

struct tag {
    uint32_t kind, size; /* of its body */
};

static struct tag *tags;
static size_t tag_count;
static uint8_t written_bytes[1 << 20];
static const char *folder;

struct output {
    const char *name;
    size_t (*written)(size_t kind, size_t size); /* how long a packet's write is; 0 where the output doesn't take its stream */
    int file;
};

static size_t flv(size_t kind, size_t size) {
    (void)kind;
    return TAG_HEAD + size + TAG_SIZE;
}

static size_t mpegts(size_t kind, size_t size) {
    (void)kind;
    return (size + PES_HEAD + CELL_PAYLOAD - 1) / CELL_PAYLOAD * CELL;
}

static size_t adts(size_t kind, size_t size) {
    return kind == SOUND ? size + 5 : 0; /* 7 bytes before the frame in place of the tag's 2 */
}

static struct output outputs[] = {{"o.flv", flv, -1}, {"o.ts", mpegts, -1}, {"o.aac", adts, -1}};

static void fail(const char *what) {
    perror(what);
    exit(1);
}

/* What the next bytes are to the reader: `skipped` of no use, and then a head of which `held` bytes are known. */
struct reader {
    size_t skipped, held;
    uint8_t head[TAG_HEAD];
};

static void read_piece(struct reader *reader, const uint8_t *piece, size_t length) {
    for (size_t at = 0; at < length;) {
        if (reader->skipped > 0) {
            size_t passed = reader->skipped < length - at ? reader->skipped : length - at;
            reader->skipped -= passed;
            at += passed;
            continue;
        }
        reader->head[reader->held++] = piece[at++];
        if (reader->held < TAG_HEAD) continue;
        const uint8_t *head = reader->head;
        uint32_t size = (uint32_t)head[1] << 16 | (uint32_t)head[2] << 8 | head[3];
        tags[tag_count++] = (struct tag){head[0], size};
        *reader = (struct reader){.skipped = size + TAG_SIZE};
    }
}

static void read_tags(const char *path) {
    static uint8_t piece[PIECE];
    struct reader reader = {.skipped = FILE_HEAD};
    int file = open(path, O_RDONLY);
    struct stat told;
    if (file < 0 || fstat(file, &told) != 0) fail(path);
    tags = malloc(((size_t)told.st_size / (TAG_HEAD + TAG_SIZE) + 1) * sizeof *tags);
    if (tags == NULL) fail("malloc");
    ssize_t got;
    while ((got = read(file, piece, PIECE)) > 0) read_piece(&reader, piece, (size_t)got);
    if (got < 0) fail(path);
    close(file);
    memset(written_bytes, 1, sizeof written_bytes);
}

static void open_output(struct output *to) {
    char path[4096];
    snprintf(path, sizeof path, "%s/%s", folder, to->name);
    to->file = open(path, O_CREAT | O_TRUNC | O_WRONLY, 0644);
    if (to->file < 0) fail(path);
}

static void write_packet(struct output *to, size_t bytes) {
    if (bytes > sizeof written_bytes || write(to->file, written_bytes, bytes) != (ssize_t)bytes) fail(to->name);
}

/* The writes of all tags to `count` outputs from `first` on. */
static void write_all(struct output *first, size_t count) {
    for (const struct tag *tag = tags; tag < tags + tag_count; tag++)
        for (struct output *to = first; to < first + count; to++) {
            size_t bytes = to->written(tag->kind, tag->size);
            if (bytes > 0) write_packet(to, bytes);
        }
}

static void *work(void *output) {
    write_all(output, 1);
    return NULL;
}

struct message {
    size_t bytes;
    uint64_t rest[16]; /* 136 bytes in all */
};

/* How far one side is, and how far it last saw the other. Each side writes into lines of its own. */
struct side {
    _Alignas(LINE) _Atomic size_t passed;
    _Alignas(LINE) size_t seen;
};

struct ring {
    struct output *to;
    struct side giver, taker;
    struct message places[PLACES];
};

static struct ring rings[sizeof outputs / sizeof *outputs];

/* Spins, yields, and then sleeps for longer and longer. */
static void wait_on(unsigned *turns) {
    unsigned turn = (*turns)++;
    if (turn < SPINS) return;
    if (turn < SPINS + YIELDS) {
        sched_yield();
        return;
    }
    unsigned doublings = turn - SPINS - YIELDS < 10 ? turn - SPINS - YIELDS : 10;
    struct timespec time = {0, 1000L << doublings};
    nanosleep(&time, NULL);
}

static void give(struct ring *ring, struct message message) {
    size_t given = atomic_load_explicit(&ring->giver.passed, memory_order_relaxed);
    unsigned turns = 0;
    while (given == ring->giver.seen + PLACES) {
        ring->giver.seen = atomic_load_explicit(&ring->taker.passed, memory_order_acquire);
        if (given == ring->giver.seen + PLACES) wait_on(&turns);
    }
    ring->places[given % PLACES] = message;
    atomic_store_explicit(&ring->giver.passed, given + 1, memory_order_release);
}

static struct message take(struct ring *ring) {
    size_t taken = atomic_load_explicit(&ring->taker.passed, memory_order_relaxed);
    unsigned turns = 0;
    while (taken == ring->taker.seen) {
        ring->taker.seen = atomic_load_explicit(&ring->giver.passed, memory_order_acquire);
        if (taken == ring->taker.seen) wait_on(&turns);
    }
    struct message message = ring->places[taken % PLACES];
    atomic_store_explicit(&ring->taker.passed, taken + 1, memory_order_release);
    return message;
}

/* Makes the writes of the messages, up to one without bytes. */
static void *write_given(void *ring) {
    struct output *to = ((struct ring *)ring)->to;
    for (struct message message = take(ring); message.bytes > 0; message = take(ring)) write_packet(to, message.bytes);
    return NULL;
}

/* Gives each output its messages, and at last one without bytes. */
static void give_all(size_t count) {
    for (const struct tag *tag = tags; tag < tags + tag_count; tag++)
        for (struct ring *ring = rings; ring < rings + count; ring++) {
            struct message message = {.bytes = ring->to->written(tag->kind, tag->size)};
            if (message.bytes > 0) give(ring, message);
        }
    for (struct ring *ring = rings; ring < rings + count; ring++) give(ring, (struct message){0});
}

int main(int count, char **words) {
    size_t outputs_count = sizeof outputs / sizeof *outputs;
    int ringed = count == 4 && strcmp(words[3], "rings") == 0;
    if (count < 3 || count > 4 || (count == 4 && !ringed && strcmp(words[3], "threads") != 0))
        return fprintf(stderr, "usage: floor INPUT FOLDER [threads | rings]\n"), 2;
    folder = words[2];
    read_tags(words[1]);
    for (size_t i = 0; i < outputs_count; i++) open_output(&outputs[i]);
    if (count == 3) return write_all(outputs, outputs_count), 0;
    pthread_t threads[sizeof outputs / sizeof *outputs];
    for (size_t i = 0; i < outputs_count; i++) {
        rings[i].to = &outputs[i];
        void *given = ringed ? (void *)&rings[i] : (void *)&outputs[i];
        if (pthread_create(&threads[i], NULL, ringed ? write_given : work, given) != 0) fail("pthread_create");
    }
    if (ringed) give_all(outputs_count);
    for (size_t i = 0; i < outputs_count; i++) pthread_join(threads[i], NULL);
    return 0;
}
