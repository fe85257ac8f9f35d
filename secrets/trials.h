/* Calls made with secrets marked, and what is asked of each by this program itself. What memcheck reports in them tools/secrets reads from its log. */
#ifndef TRIALS_H
#define TRIALS_H

#include "calls.h"

/* How many calls were made with marks, and how often one was not as it should be. */
extern unsigned calls, failures;

/* Says in the log which call comes, and that it is over. Between them stands what memcheck reports in it. */
void begin(const char *line);
void end(void);

/* Says what is wrong with the call at hand. */
void fail(const char *what, size_t number);

/* Makes a call with nothing marked, which has to succeed. What it writes is what it has to write with marks. */
void expect(const struct call *call);

/* Makes a call that succeeds with each of some secrets marked alone, and then with several together. */
void succeed_each(const char *phase, const struct call *call, unsigned alone, unsigned together);

/* Makes a call that is refused, with the secrets marked that refusals 8 and 9 are about. */
void refused(const struct call *call, uint32_t code, size_t place);

/* How many calls of a kind something was reported in when they were refused with a code. */
enum { CODES = 14 };
extern unsigned judgings[KINDS][CODES];

#endif
