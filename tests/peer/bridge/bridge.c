/* Lets a peer on another processor call the built library, which is for x86-64 only.
 *
 * This program links the archive, runs under an emulator, and serves one call after the other: it reads
 * a request, a set and lent memory from standard input and writes the answer and the memory to standard
 * output. It knows nothing of document 01. It needs no C library, so that none for x86-64 has to be
 * installed. */
#include "../../../include/rack.h"

enum { JUDGE, FIGURES, DEMAND, LAYERS, BEGIN, PART, CLOSE };
enum { LARGEST_SET = 1 << 22, MOST_MEMORY = 1 << 24, ROUND = 32 };

struct request {
    uint64_t entry, len, a, b, c, d;
    uint64_t memory, guard; /* bytes of memory sent along; so many around a table or a room are guards */
};

struct answer {
    uint64_t number, fields[5];
    uint64_t kept; /* whether the set and the bytes around it are as they were */
};

static uint8_t set[LARGEST_SET], copy[LARGEST_SET];

/* What is lent: a table, or the second of three uploads and a room behind them. */
static union {
    uint8_t bytes[MOST_MEMORY];
    uint32_t words[MOST_MEMORY / 4];
    struct rack_upload uploads[3];
} memory;

void *memcpy(void *to, const void *from, size_t count) {
    for (size_t at = 0; at < count; at++) ((uint8_t *)to)[at] = ((const uint8_t *)from)[at];
    return to;
}

void *memset(void *to, int byte, size_t count) {
    for (size_t at = 0; at < count; at++) ((uint8_t *)to)[at] = (uint8_t)byte;
    return to;
}

static long call_system(long number, long a, long b, long c) {
    long result;
    __asm__ volatile("syscall"
                     : "=a"(result)
                     : "a"(number), "D"(a), "S"(b), "d"(c)
                     : "rcx", "r11", "memory");
    return result;
}

static void stop(long status) {
    for (;;) call_system(60, status, 0, 0);
}

/* The end of the input ends the program. */
static void receive(void *to, size_t count) {
    for (uint8_t *at = to; count > 0;) {
        long got = call_system(0, 0, (long)at, (long)count);
        if (got <= 0) stop(got < 0);
        at += got;
        count -= (size_t)got;
    }
}

static void send(const void *from, size_t count) {
    for (const uint8_t *at = from; count > 0;) {
        long put = call_system(1, 1, (long)at, (long)count);
        if (put <= 0) stop(1);
        at += put;
        count -= (size_t)put;
    }
}

static struct answer judged(struct rack_verdict given) {
    return (struct answer){given.number, {given.place, given.x, given.w, given.p, given.q}, 1};
}

/* The part is what else is the set. */
static struct answer call_upload(const struct request *r, const uint8_t *part) {
    struct rack_upload *upload = &memory.uploads[1];
    uint8_t *room = memory.bytes + sizeof memory.uploads + r->guard;
    size_t len = r->memory - sizeof memory.uploads - 2 * r->guard;
    uint64_t number = 0;
    switch (r->entry) {
    case BEGIN:
        *upload = rack_upload_begin();
        break;
    case PART:
        number = rack_upload_part(upload, room, len, part, r->len);
        break;
    default:
        return judged(rack_upload_close(upload, room, len, r->a, r->b, r->c));
    }
    return (struct answer){number, {0, 0, 0, 0, 0}, 1};
}

static struct answer call(const struct request *r, const uint8_t *from) {
    switch (r->entry) {
    case JUDGE:
        return judged(rack_judge(from, r->len, r->a, r->b, r->c));
    case FIGURES: {
        struct rack_task_figures given = rack_figures(from, r->len, r->a);
        return (struct answer){given.number, {given.place, given.length, given.volume, 0, 0}, 1};
    }
    case DEMAND: {
        struct rack_task_demand given = rack_demand(from, r->len, r->a, r->b, r->c, r->d);
        return (struct answer){given.number, {given.place, given.work, 0, 0, 0}, 1};
    }
    case LAYERS: {
        uint32_t *table = memory.words + r->guard / 4;
        size_t words = (r->memory - 2 * r->guard) / 4;
        struct rack_task_layers given =
            rack_layers(from, r->len, r->a, r->b, r->c, table, words);
        return (struct answer){given.number, {given.place, given.pairs, 0, 0, 0}, 1};
    }
    default:
        return call_upload(r, from);
    }
}

static void serve(void) {
    struct request r;
    receive(&r, sizeof r);
    if (r.len > LARGEST_SET - 2 * ROUND || r.memory > MOST_MEMORY) stop(2);
    size_t from = 1 + r.len % 13, all = r.len + 2 * ROUND; /* at addresses of any remainder by 16 */
    memset(set, 1, all);
    receive(set + from, r.len);
    memcpy(copy, set, all);
    receive(memory.bytes, r.memory);
    struct answer answer = call(&r, set + from);
    for (size_t at = 0; at < all; at++) answer.kept &= set[at] == copy[at];
    send(&answer, sizeof answer);
    send(memory.bytes, r.memory);
}

__attribute__((used)) static void run(void) {
    for (;;) serve();
}

__attribute__((naked, noreturn)) void _start(void) {
    __asm__("xor %ebp, %ebp\n\tand $-16, %rsp\n\tcall run");
}
