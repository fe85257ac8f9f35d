/* Tells callgrind what to count, where valgrind's header was there when this was compiled; otherwise, and in a run without valgrind, these do
 * nothing. Callgrind's own way of counting inside one named function loses track of returns on Arm. */
#if defined(__has_include)
#if __has_include(<valgrind/callgrind.h>)
#include <valgrind/callgrind.h>
#endif
#endif
#ifndef CALLGRIND_TOGGLE_COLLECT
#define CALLGRIND_TOGGLE_COLLECT
#define CALLGRIND_DUMP_STATS
#endif

void counting_begins(void) { CALLGRIND_TOGGLE_COLLECT; }

/* Each time one more dump is written, of what was counted since the one before. */
void counting_ends(void) {
    CALLGRIND_TOGGLE_COLLECT;
    CALLGRIND_DUMP_STATS;
}
