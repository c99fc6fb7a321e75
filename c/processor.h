/* A processor for each of two processes that measure: on one processor they would share no cache
 * line, and a frame would be much cheaper. */
#ifndef PROCESSOR_H
#define PROCESSOR_H
#include <sched.h>
#include <stdint.h>

/* Binds process 0 to the first and process 1 to the last processor that it may use. */
static inline void take_processor(uint32_t me) {
    cpu_set_t all, one;
    size_t chosen = CPU_SETSIZE;
    if (sched_getaffinity(0, sizeof all, &all)) return;
    for (size_t k = 0; k < CPU_SETSIZE; k++)
        if (CPU_ISSET(k, &all) && (me == 1 || chosen == CPU_SETSIZE)) chosen = k;
    CPU_ZERO(&one);
    CPU_SET(chosen, &one);
    sched_setaffinity(0, sizeof one, &one);
}
#endif
