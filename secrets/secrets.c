/* Whether a secret chooses a branch or an address in the machine code: every call, with its secrets marked. tools/secrets builds this program, runs it
 * under memcheck and reads from the log what memcheck reported in which call.
 *
 * Refusals 8 and 9 are about secrets, so what judges them has to branch on marked bytes. Compiled, it stands in the midst of other code and has no name
 * of its own. But memcheck names each instruction once, at its first report. So calls go in this order:
 *
 *   strict   calls with those secrets marked that no refusal is about. Nothing may be reported.
 *   judged   calls that are refused, with those secrets marked that 8 and 9 are about. They write nothing: an instruction that is reported here judges.
 *   whole    calls that succeed, these secrets marked alone and all together. What is reported here did not judge, and may not be.
 *   leak     two leaks on purpose. They come last: where they are seen, whatever came before was looked at. */
#include <stdio.h>

#include "leaks.h"
#include "trials.h"

/* The smallest batch and the largest ones; rows around multiples of eight, few and many places, strings around the lengths that registers have. */
static const struct shape shapes[] = {
    {1, 1, 2, 1},    {1, 7, 2, 2},    {1, 8, 2, 3},     {1, 9, 2, 8},     {1, 15, 2, 15},   {1, 16, 2, 16},   {1, 17, 2, 17},
    {1, 31, 2, 31},  {1, 32, 2, 32},  {1, 33, 2, 1},    {1, 63, 2, 2},    {1, 64, 2, 31},   {1, 65, 2, 32},   {1, 1024, 2, 16},
    {2, 1, 2, 1},    {2, 7, 3, 2},    {2, 8, 16, 3},    {2, 9, 40, 8},    {2, 15, 2, 15},   {2, 16, 3, 16},   {2, 17, 16, 17},
    {2, 31, 2, 31},  {2, 32, 16, 32}, {2, 33, 255, 1},  {2, 63, 3, 2},    {2, 64, 40, 8},   {2, 65, 16, 16},  {2, 513, 3, 17},
    {2, 1, 256, 32}, {2, 4, 256, 32}, {2, 128, 256, 1}, {2, 1023, 16, 2}, {2, 1024, 16, 2}, {2, 1024, 2, 16},
};

static unsigned secrets_of(const struct call *call) {
    unsigned all = 0;
    for (unsigned s = 0; s < MOST_SECRETS; s++) all |= (unsigned)(call->secrets[s].name != NULL) << s;
    return all;
}

static void strict(struct call call) {
    const unsigned free = secrets_of(&call) & ~call.judged;
    expect(&call);
    succeed_each("strict", &call, free, free);
}

/* Where no refusal is about any of its secrets, a call has had all its markings in the strict phase. */
static void whole(struct call call) {
    expect(&call);
    if (call.judged != 0) succeed_each("whole", &call, call.judged, secrets_of(&call));
}

/* Each call of an exchange needs what the one before it wrote. */
static void exchange(void (*phase)(struct call)) {
    phase(prepare_call());
    phase(answer_call());
    phase(open_call());
    if (first_wrong_row() < shape.rows) fail("not the selected string, in row", first_wrong_row());
}

static void strict_exchange(void) { exchange(strict); }
static void whole_exchange(void) { exchange(whole); }

/* Refusal 8. With 256 places there is no selection that is too large. */
static void refuse_selections(const struct call *call, const struct buffer *selections) {
    const size_t rows[] = {0, shape.rows / 2u, shape.rows - 1u};
    for (size_t i = 0; i < 3 && shape.places < 256; i++) {
        uint8_t *selection = &selections->bytes[rows[i]], old = *selection;
        *selection = i == 1 ? 255 : (uint8_t)shape.places;
        refused(call, 8, rows[i]);
        *selection = old;
    }
}

/* Refusal 9. Where the rows are a multiple of eight there is no padding. */
static void refuse_columns(const struct call *call, const struct buffer *set, size_t base) {
    const size_t columns[] = {0, 1, k() / 2, k() - 1};
    for (size_t i = 0; i < 4 && shape.rows % 8 != 0; i++) {
        uint8_t *last = &set->bytes[columns[i] * c() + c() - 1];
        const uint8_t bit = i % 2 == 0 ? 0x80 : (uint8_t)(1u << shape.rows % 8);
        *last |= bit;
        refused(call, 9, base + columns[i]);
        *last &= (uint8_t)~bit;
    }
}

/* Refusal 10, once 8 and 9 have passed: the received message is empty, is cut short, or has the other tag. */
static void refuse_received(struct call call) {
    const size_t length = call.received.length;
    call.received.length = 0;
    refused(&call, 10, 0);
    call.received.length = length - 1;
    refused(&call, 10, 24);
    call.received.length = length;
    call.received.bytes[24] ^= 7;
    refused(&call, 10, 24);
    call.received.bytes[24] ^= 7;
}

static void judged_prepare(const struct call *call) {
    refuse_selections(call, &call->secrets[SELECTIONS]);
    if (seeds) return;
    refuse_columns(call, &call->secrets[FIRST], 0);
    refuse_columns(call, &call->secrets[SECOND], k());
}

static void judged_answer(const struct call *call) {
    if (seeds) return;
    refuse_columns(call, &call->secrets[TAKEN], 0);
    refuse_received(*call);
}

static void judged_open(const struct call *call) {
    refuse_selections(call, &call->secrets[CHOSEN]);
    refuse_received(*call);
}

static void judged_exchange(void) {
    const struct call prepare = prepare_call(), answer = answer_call(), open = open_call();
    judged_prepare(&prepare);
    expect(&prepare);
    judged_answer(&answer);
    expect(&answer);
    judged_open(&open);
}

static void each_batch(void (*exchange)(void)) {
    for (size_t i = 0; i < 2 * sizeof shapes / sizeof *shapes; i++) {
        shape = shapes[i / 2], seeds = i % 2 == 0;
        make_inputs();
        exchange();
    }
}

static void hashes(void) {
    static const size_t lengths[] = {0, 1, 31, 32, 48, 55, 56, 63, 64, 65, 119, 120, 127, 128, 129, 183, 184, 4096, 65535};
    for (size_t i = 0; i < sizeof lengths / sizeof *lengths; i++) strict(hash_call(lengths[i]));
}

static void blocks(void) {
    static const uint32_t counters[] = {0, 1, 2, 255, 256, 0x7fffffff, 0x80000000, 0xffffffff};
    for (size_t i = 0; i < sizeof counters / sizeof *counters; i++) strict(block_call(counters[i]));
}

static void need_judging(enum kind kind, const char *name, uint32_t code) {
    begin(name);
    if (judgings[kind][code] == 0) fail("never seen to judge refusal", code);
    end();
}

static void check_judgings(void) {
    need_judging(PREPARE, "prepare", 8);
    need_judging(PREPARE, "prepare", 9);
    need_judging(ANSWER, "answer", 9);
    need_judging(OPEN, "open", 8);
}

static void leak(const char *line, void (*leaking)(const uint8_t *)) {
    uint8_t byte = 1;
    const struct buffer secret = {"secret", &byte, 1};
    begin(line);
    mark(&secret);
    leaking(&byte);
    end();
}

int main(void) {
    if (!under_memcheck()) {
        fprintf(stderr, "secrets: not under valgrind's memcheck, so nothing is seen; tools/secrets runs it\n");
        return 1;
    }
    end();
    make_input_and_key();
    hashes();
    blocks();
    each_batch(strict_exchange);
    each_batch(judged_exchange);
    check_judgings();
    each_batch(whole_exchange);
    leak("leak: by a branch", leak_by_branch);
    leak("leak: by an address", leak_by_address);
    char line[64];
    snprintf(line, sizeof line, "finished: %u calls", calls);
    log_line(line);
    if (failures > 0) fprintf(stderr, "secrets: %u checks failed\n", failures);
    return failures == 0 ? 0 : 1;
}
