#include "leaks.h"

static volatile uint8_t seen, table[256];

/* A volatile byte is written only where the program says so: no compiler may write it on both ways and choose the value. */
void leak_by_branch(const uint8_t *secret) {
    if (*secret & 1) seen = 1;
}

void leak_by_address(const uint8_t *secret) { seen = table[*secret]; }
