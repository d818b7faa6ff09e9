/* A cell of 1 to 64 words that several threads read and write, each read whole: the proved library `cell_c`.
 *
 * ./cell builds it. Link: cc prog.c libcell_c.a liblibc_c.a -lpthread   (the second calls malloc, realloc and free)
 *
 * What the program owes, since nothing checks it:
 *   - A seat is CELL_C_NO_SEAT before its first call (an initialiser; `seat.at = NULL` says the same), and is changed by
 *     these calls alone. It may be moved: of a seat and its copies only one is used from then on.
 *   - One call at a time has a seat. Give each thread one of its own (cell_c_split). A seat may go to another thread over a
 *     thread's start or join, a lock, or a sequentially consistent atomic.
 *   - `seat`, `other`, `out`, `values` and `count` are not null, do not overlap in one call, and point to as much as is said;
 *     no other thread uses that memory during the call. (The three inline functions below test for null.)
 *   - malloc, realloc and free are one allocator, aligned to 16. No call from a signal handler, nor from a child forked by a
 *     process with threads.
 * What the calls test themselves: that there is a seat, the number of words, the opening count, memory. A seat has its cell
 * with it, so none can be used with another cell. */
#ifndef CELL_C_H
#define CELL_C_H

#include <stddef.h>
#include <stdint.h>

#ifdef __cplusplus
extern "C" {
#endif

/* A seat at a cell, or none. */
typedef struct cell_c_seat {
    void *at;
} cell_c_seat;

#define CELL_C_NO_SEAT { 0 }

enum {
    CELL_C_DONE = 0,
    CELL_C_NO_SEAT_GIVEN = 1, /* the seat is none */
    CELL_C_WRONG_LENGTH = 2,  /* not as many words as the cell has; at an opening, none or more than 64 */
    CELL_C_WRONG_COUNT = 3,   /* an opening count of 2^62 or more */
    CELL_C_NO_MEMORY = 4,
    CELL_C_NOT_FREE = 5,      /* another write is under way (no read of a latch cell) */
    CELL_C_CHANGED = 6,       /* a read: a write came between, twice; a write: another one came first */
    CELL_C_FULL = 7,          /* the cell has its last count, 2^62 - 1 */
    CELL_C_NULL = 8           /* of the inline functions: a null pointer */
};

/* A new cell with these values under this count. Where the answer is CELL_C_DONE its first seat comes into `seat`, and the seat
 * that was there is closed; else that stays as it was. */
uint32_t cell_c_open(const uint64_t *values, size_t len, uint64_t count, cell_c_seat *seat);

/* The same with a latch cell: it has two copies of the values, and no write holds up its reads. A read fails with CELL_C_CHANGED
 * alone, where in each of two attempts a whole write ended. All calls below are for seats of either kind. */
uint32_t cell_c_open_latch(const uint64_t *values, size_t len, uint64_t count, cell_c_seat *seat);

/* Gives a seat up, if it is one. The last one of a cell frees the cell. `seat` is none then. */
void cell_c_close(cell_c_seat *seat);

/* One more seat of the same cell, into `other`, whose own seat is closed where the answer is CELL_C_DONE, and else stays. */
uint32_t cell_c_split(cell_c_seat *seat, cell_c_seat *other);

/* All values of one count into `out`, and that count into `count`: no less than what this seat saw before. After any other
 * answer than CELL_C_DONE both are as they were. Waits for nobody. */
uint32_t cell_c_read(cell_c_seat *seat, uint64_t *out, size_t len, uint64_t *count);

/* The same straight into `out`, which takes less time: after any other answer than CELL_C_DONE, and those that say that nothing
 * was tried (CELL_C_NO_SEAT_GIVEN, CELL_C_WRONG_LENGTH), its words are any. `count` is then as it was. */
uint32_t cell_c_read_into(cell_c_seat *seat, uint64_t *out, size_t len, uint64_t *count);

/* These values under the next count, which comes into `count`. After any other answer nothing was written, and `count` is as
 * it was. Waits for nobody. */
uint32_t cell_c_write(cell_c_seat *seat, const uint64_t *values, size_t len, uint64_t *count);

static inline uint32_t cell_c_read_checked(cell_c_seat *seat, uint64_t *out, size_t len, uint64_t *count) {
    return seat && out && count ? cell_c_read(seat, out, len, count) : (uint32_t)CELL_C_NULL;
}

static inline uint32_t cell_c_read_into_checked(cell_c_seat *seat, uint64_t *out, size_t len, uint64_t *count) {
    return seat && out && count ? cell_c_read_into(seat, out, len, count) : (uint32_t)CELL_C_NULL;
}

static inline uint32_t cell_c_write_checked(cell_c_seat *seat, const uint64_t *values, size_t len, uint64_t *count) {
    return seat && values && count ? cell_c_write(seat, values, len, count) : (uint32_t)CELL_C_NULL;
}

#ifdef __cplusplus
}
#endif

#endif
