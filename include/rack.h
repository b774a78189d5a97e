/* The rack test for C and C++: link the archive that `tools/build rack` makes, or a shared library
 * made from it (x86-64). docs/REFERENCE.md says what sets, speeds, ticks and numbers are.
 *
 * Memory      Every byte belongs to the caller. The library reads sets and parts, and it writes the
 *             table that is lent to rack_layers, and an upload and its room. It keeps no pointer,
 *             has no heap and no state of its own: the state of an upload is the caller's.
 * Pointers    `set`, `room` and `part` point to so many bytes as their length says, any bytes, at
 *             any address; `table` to `words` words at an address that is a multiple of 4. Each may
 *             be null where its length is 0. `upload` points to one struct at an address that is a
 *             multiple of 8. Table, upload and room overlap nothing else that the call is given,
 *             and nobody else may write to anything that it is given during a call.
 * Answers     Come by value. `number` says what was found, `place` the record that it speaks of; a
 *             field that the number gives no value is 0. Later versions may add fields at the end,
 *             so a caller names fields, and is compiled with the header of its archive.
 * Refusals    Every call has an answer, whatever its bytes and numbers. A refusal is one, and it
 *             changes no memory, but for one word: a refused closing closes its upload too.
 * Threads     Calls may run side by side on any threads, on one set too, with a table each, or an
 *             upload and a room each. The calls of one upload come one after the other.
 * Stack       Calls of rack_judge were measured at up to 139 KiB, and a closing makes one; give a
 *             thread 256 KiB. */
#ifndef RACK_H
#define RACK_H

#include <stddef.h>
#include <stdint.h>

#ifdef __cplusplus
extern "C" {
#endif

/* The numbers of answers. */
enum {
    RACK_OK = 0,           /* judge: accepted; the others: answered */
    RACK_BAD_CALL = 1,     /* m, p, q or x is out of range */
    RACK_BAD_LENGTH = 2,   /* the set's length is no multiple of 16 */
    RACK_BAD_RECORD = 3,   /* the record at `place` breaks the record table, or is missing */
    RACK_BAD_GRAPH = 4,    /* the graph of the task at `place` breaks a rule */
    RACK_MANY_TASKS = 5,   /* a 33rd task begins at `place` */
    RACK_NO_TASK = 6,      /* the set has no task of that number */
    RACK_LONG_CYCLE = 7,   /* judge: the common cycle of the periods is over 50,000 */
    RACK_DENSE = 8,        /* the task at `place` cannot meet its deadline at this speed; with 0/0
                            * at no speed, as its length exceeds its deadline */
    RACK_OVERRUN = 9,      /* judge: x ticks may carry w units, more than the rack promises */
    RACK_SHORT_TABLE = 10, /* layers: the lent table is too short */
    RACK_SHORT_ROOM = 11,  /* closing: the joined bytes exceed the lent room */
    RACK_CLOSED = 12       /* part, closing: the upload is closed; begin it anew */
};

/* Whether the set may share a rack of m processors at the speed p/q. 0/0 stands for the smallest
 * p/q, in lowest terms and with q at most 31, that is at least m/(2m-1) and at least every task's
 * length/deadline. With RACK_OVERRUN, x is the shortest overrunning interval in ticks, and w its
 * demand in work units. With RACK_OK and RACK_OVERRUN, p/q is the speed used: the one named, as it
 * was named, or the one that 0/0 stands for. */
struct rack_verdict {
    uint64_t number, place, x, w, p, q;
};
struct rack_verdict rack_judge(const uint8_t *set, size_t len, uint64_t m, uint64_t p, uint64_t q);

/* Length and volume of a task of the set, in time units. Tasks are counted from 0. */
struct rack_task_figures {
    uint64_t number, place, length, volume;
};
struct rack_task_figures rack_figures(const uint8_t *set, size_t len, size_t task);

/* The demand of a task of the set at tick x, in work units. */
struct rack_task_demand {
    uint64_t number, place, work;
};
struct rack_task_demand rack_demand(const uint8_t *set, size_t len, size_t task, uint64_t p,
                                    uint64_t q, uint64_t x);

/* The layers of a task of the set: `pairs` times width and duration, at the front of the table. The
 * words behind them stay. */
struct rack_task_layers {
    uint64_t number, place, pairs;
};
struct rack_task_layers rack_layers(const uint8_t *set, size_t len, size_t task, uint64_t p,
                                    uint64_t q, uint32_t *table, size_t words);

/* A set that arrives in parts: begin an upload, hand in the parts in their order and with one room,
 * and close. Parts may be cut anywhere, also inside a record, and may be empty.
 *
 *     held      how many bytes at the front of the room hold the joined bytes
 *     over      other than 0 once some bytes did not fit
 *     closed    other than 0 after a closing
 *
 * Between calls upload and room are the caller's, to move and to change: each call goes by the
 * words and the bytes that it finds, and has an answer for any. */
struct rack_upload {
    uint64_t held, over, closed;
};

/* A new upload: all three words are 0. What was closed is begun anew in the same way. */
struct rack_upload rack_upload_begin(void);

/* Puts a part into the room, behind what is held, as far as it fits. The rest of the room stays.
 * Gives RACK_OK, also where not all of it fits: the closing will say so. After a closing it gives
 * RACK_CLOSED, and changes nothing. */
uint64_t rack_upload_part(struct rack_upload *upload, uint8_t *room, size_t len,
                          const uint8_t *part, size_t part_len);

/* Judges what is held at the front of the room, as rack_judge does, and closes the upload. Three
 * refusals come before: RACK_CLOSED after a closing, which changes nothing; RACK_BAD_CALL; and
 * RACK_SHORT_ROOM, where bytes did not fit or the room is shorter than what is held. Whatever else
 * the answer is, the upload is closed then, and nothing but that has changed. */
struct rack_verdict rack_upload_close(struct rack_upload *upload, const uint8_t *room, size_t len,
                                      uint64_t m, uint64_t p, uint64_t q);

#ifdef __cplusplus
}
#endif

#endif
