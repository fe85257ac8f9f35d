#include <stdio.h>
#include <stdlib.h>
#include <valgrind/memcheck.h>

#include "marks.h"

/* Another tool of valgrind's knows no marks, and does not answer. */
int under_memcheck(void) {
    uint8_t byte = 0, marks;
    return RUNNING_ON_VALGRIND && VALGRIND_GET_VBITS(&byte, &marks, 1) == 1;
}

void mark(const struct buffer *buffer) { (void)VALGRIND_MAKE_MEM_UNDEFINED(buffer->bytes, buffer->length); }

void unmark(void *bytes, size_t length) { (void)VALGRIND_MAKE_MEM_DEFINED(bytes, length); }

const uint8_t *marks_in(const struct buffer *buffer) {
    static uint8_t marks[LONGEST];
    if (buffer->length > sizeof marks || VALGRIND_GET_VBITS(buffer->bytes, marks, buffer->length) != 1) {
        fprintf(stderr, "secrets: memcheck does not say what is marked in %s\n", buffer->name);
        exit(1);
    }
    return marks;
}

unsigned reports(void) { return VALGRIND_COUNT_ERRORS; }

void log_line(const char *line) { VALGRIND_PRINTF("%s\n", line); }
