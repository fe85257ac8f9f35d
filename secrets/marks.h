/* A marked byte is one that memcheck takes for undefined. It reports every instruction that branches on such a byte or that reads or writes at an
 * address made of one, and what is worked out from marked bytes is marked too. */
#ifndef MARKS_H
#define MARKS_H

#include <stddef.h>
#include <stdint.h>

enum { LONGEST = 65536 };

/* A lent buffer. */
struct buffer { const char *name; uint8_t *bytes; size_t length; };

int under_memcheck(void);
void mark(const struct buffer *buffer);
void unmark(void *bytes, size_t length);

/* For each byte of a buffer which of its bits are marked; good until the next such question. */
const uint8_t *marks_in(const struct buffer *buffer);

/* How often anything was reported so far, an instruction that was reported before counted again. */
unsigned reports(void);

/* Writes a line between memcheck's reports. */
void log_line(const char *line);

#endif
