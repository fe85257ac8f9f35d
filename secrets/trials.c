#include "trials.h"

#include <stdio.h>
#include <string.h>

#include "adunwezi.h"

enum { PAINT = 0xa5, LINE = 160, MOST_SAID = 5 };

unsigned calls, failures, judgings[KINDS][CODES];

static char at_hand[LINE];

void begin(const char *line) {
    snprintf(at_hand, sizeof at_hand, "%s", line);
    log_line(line);
}

void end(void) { log_line("between calls"); }

void fail(const char *what, size_t number) {
    if (failures++ < MOST_SAID) fprintf(stderr, "secrets: %s: %s %zu\n", at_hand, what, number);
}

static void fail_at(const struct buffer *output, size_t at, const char *what) {
    if (failures++ < MOST_SAID) fprintf(stderr, "secrets: %s: byte %zu of the output '%s' %s\n", at_hand, at, output->name, what);
}

static void begin_marked(const char *phase, const struct call *call, unsigned marking) {
    char line[LINE];
    int length = snprintf(line, sizeof line, "%s: %s, marked:", phase, call->title);
    for (unsigned s = 0; s < MOST_SECRETS; s++)
        if (marking >> s & 1) length += snprintf(line + length, sizeof line - (size_t)length, " %s", call->secrets[s].name);
    begin(line);
}

static void mark_secrets(const struct call *call, unsigned marking) {
    for (unsigned s = 0; s < MOST_SECRETS; s++)
        if (marking >> s & 1) mark(&call->secrets[s]);
}

static void unmark_secrets(const struct call *call) {
    for (unsigned s = 0; s < MOST_SECRETS; s++) unmark(call->secrets[s].bytes, call->secrets[s].length);
}

static void paint_outputs(const struct call *call) {
    for (unsigned o = 0; o < MOST_OUTPUTS; o++)
        if (call->outputs[o].name) memset(call->outputs[o].bytes, PAINT, call->outputs[o].length);
}

/* A verdict that is about no secret is public. */
static void check_verdict(uint64_t *verdict) {
    const struct buffer buffer = {"verdict", (uint8_t *)verdict, sizeof *verdict};
    const uint8_t *marks = marks_in(&buffer);
    size_t at = 0;
    while (at < buffer.length && !marks[at]) at++;
    if (at < buffer.length) fail_at(&buffer, at, "is public and bears a mark");
}

/* Where 8 or 9 is about what is marked the verdict may be marked too. */
static uint64_t run_marked(const char *phase, const struct call *call, unsigned marking) {
    paint_outputs(call);
    begin_marked(phase, call, marking);
    mark_secrets(call, marking);
    uint64_t verdict = call->run(call);
    unmark_secrets(call);
    end();
    if ((marking & call->judged) == 0) check_verdict(&verdict);
    unmark(&verdict, sizeof verdict);
    calls++;
    return verdict;
}

/* What the call at hand wrote with nothing marked. */
static uint8_t expected[MOST_OUTPUTS][LONGEST];

void expect(const struct call *call) {
    begin(call->title);
    paint_outputs(call);
    const uint64_t verdict = call->run(call);
    end();
    if (verdict != 0) fail("refused with", ADW_CODE(verdict));
    for (unsigned o = 0; o < MOST_OUTPUTS; o++)
        if (call->outputs[o].name) memcpy(expected[o], call->outputs[o].bytes, call->outputs[o].length);
}

static int depends_on_any(const struct call *call, unsigned marking, unsigned output, size_t at) {
    for (unsigned s = 0; s < MOST_SECRETS; s++)
        if (marking >> s & 1 && call->depends(call, s, output, at)) return 1;
    return 0;
}

/* What is public about a message bears no mark. */
static void check_header(const struct call *call) {
    const uint8_t *marks = marks_in(&call->outputs[0]);
    size_t at = 0;
    while (at < call->header && !marks[at]) at++;
    if (at < call->header) fail_at(&call->outputs[0], at, "is public and bears a mark");
}

/* Marks have to reach whatever depends on the secrets that bore them: else the call was made without them. */
static void check_marks(const struct call *call, unsigned marking, unsigned output) {
    const uint8_t *marks = marks_in(&call->outputs[output]);
    const size_t length = call->outputs[output].length;
    size_t at = output == 0 ? call->header : 0;
    while (at < length && (marks[at] || !depends_on_any(call, marking, output, at))) at++;
    if (at < length) fail_at(&call->outputs[output], at, "bears no mark");
}

static void check_bytes(const struct call *call, unsigned output) {
    const struct buffer *buffer = &call->outputs[output];
    unmark(buffer->bytes, buffer->length);
    size_t at = 0;
    while (at < buffer->length && buffer->bytes[at] == expected[output][at]) at++;
    if (at < buffer->length) fail_at(buffer, at, "is another than with nothing marked");
}

static void succeed(const char *phase, const struct call *call, unsigned marking) {
    const uint64_t verdict = run_marked(phase, call, marking);
    if (verdict != 0) fail("refused with", ADW_CODE(verdict));
    check_header(call);
    for (unsigned o = 0; o < MOST_OUTPUTS && call->outputs[o].name; o++) {
        check_marks(call, marking, o);
        check_bytes(call, o);
    }
}

void succeed_each(const char *phase, const struct call *call, unsigned alone, unsigned together) {
    for (unsigned s = 0; s < MOST_SECRETS; s++)
        if (alone >> s & 1) succeed(phase, call, 1u << s);
    if (together & (together - 1)) succeed(phase, call, together);
}

static void check_unwritten(const struct buffer *buffer) {
    const uint8_t *marks = marks_in(buffer);
    size_t at = 0;
    while (at < buffer->length && !marks[at] && buffer->bytes[at] == PAINT) at++;
    if (at < buffer->length) fail_at(buffer, at, "was written, though the call is refused");
}

/* Where it is refused by what is marked, something has to be reported: a test that sees no judging would see no leak. */
void refused(const struct call *call, uint32_t code, size_t place) {
    const unsigned before = reports();
    const uint64_t verdict = run_marked("judged", call, call->judged);
    if (reports() != before) judgings[call->kind][code]++;
    else if (code < 10) fail("nothing was reported, though it is about a secret: refusal", code);
    if (verdict != ((uint64_t)code << 32) + place) fail("not given at its place: refusal", code);
    for (unsigned o = 0; o < MOST_OUTPUTS && call->outputs[o].name; o++) check_unwritten(&call->outputs[o]);
}
