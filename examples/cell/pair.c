/* A pair of words that one thread writes and another one reads: whoever reads it has both of one write.
 *
 *   ./cell
 *   cc -O2 -I out/cell/include -o pair examples/cell/pair.c out/cell/lib/libcell_c.a out/cell/lib/liblibc_c.a -lpthread
 */
#include "cell_c.h"
#include <pthread.h>
#include <stdio.h>

#define WRITES 1000

static void *write_on(void *given) {
    cell_c_seat *seat = given;
    uint64_t count = 0;
    while (count < WRITES) {
        uint64_t next[2] = {count + 1, 2 * (count + 1)};
        cell_c_write(seat, next, 2, &count);
    }
    return NULL;
}

int main(void) {
    uint64_t pair[2] = {0, 0}, count = 0;
    cell_c_seat reader = CELL_C_NO_SEAT, writer = CELL_C_NO_SEAT;
    pthread_t thread;
    if (cell_c_open(pair, 2, 0, &reader) != CELL_C_DONE) return 1;
    if (cell_c_split(&reader, &writer) != CELL_C_DONE) return 1;
    if (pthread_create(&thread, NULL, write_on, &writer)) return 1;
    while (count < WRITES) {
        /* after CELL_C_NOT_FREE and CELL_C_CHANGED a write was in the way, and both are as they were */
        if (cell_c_read(&reader, pair, 2, &count) == CELL_C_DONE && pair[1] != 2 * pair[0]) return 1;
    }
    pthread_join(thread, NULL);
    cell_c_close(&writer);
    cell_c_close(&reader);
    printf("%llu and %llu, at count %llu\n", (unsigned long long)pair[0], (unsigned long long)pair[1],
           (unsigned long long)count);
    return 0;
}
