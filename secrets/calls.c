#include "calls.h"

#include <stdio.h>
#include <string.h>

#include "adunwezi.h"

struct shape shape;
int seeds;

enum { SESSION = 12, SEED = 32 };
static uint8_t session[SESSION], first[LONGEST], second[LONGEST], taken[LONGEST], selections[1024];
static uint8_t secret[32], strings[LONGEST], message[LONGEST], kept[LONGEST], answers[LONGEST], opened[LONGEST];
static uint8_t input[LONGEST], key[32], small[64];

size_t k(void) { return shape.mode == 1 ? 128 : 256; }
size_t c(void) { return (shape.rows + 7u) / 8; }
static size_t entry(void) { return seeds ? SEED : c(); }
static size_t volume(void) { return (size_t)shape.rows * shape.places * shape.bytes; }

#define SHAPE shape.mode, shape.rows, shape.places, shape.bytes
#define LEND(buffer) (buffer).bytes, (buffer).length

static uint64_t run_prepare(const struct call *call) {
    const struct buffer *in = call->secrets, *out = call->outputs;
    return (seeds ? adw_prepare_from_seeds : adw_prepare_from_columns)(
        SHAPE, session, SESSION, LEND(in[FIRST]), LEND(in[SECOND]), LEND(in[SELECTIONS]), LEND(out[0]), LEND(out[1]));
}

static uint64_t run_answer(const struct call *call) {
    const struct buffer *in = call->secrets;
    return (seeds ? adw_answer_from_seeds : adw_answer_from_columns)(
        SHAPE, session, SESSION, LEND(in[SECRET]), LEND(in[TAKEN]), LEND(in[STRINGS]), LEND(call->received), LEND(call->outputs[0]));
}

static uint64_t run_open(const struct call *call) {
    const struct buffer *in = call->secrets;
    return adw_open(SHAPE, session, SESSION, LEND(in[CHOSEN]), LEND(in[KEPT]), LEND(call->received), LEND(call->outputs[0]));
}

static uint64_t run_hash(const struct call *call) { return adw_hash(LEND(call->secrets[0]), LEND(call->outputs[0])); }

static uint64_t run_block(const struct call *call) {
    return adw_cipher_block(LEND(call->secrets[0]), session, SESSION, call->counter, LEND(call->outputs[0]));
}

/* The block is the sum of both sets and D, a kept row is made of the second set and D. Place 0 of every word of mode 2 is 0, so there D's column 0 is
 * the same for all selections. */
static int prepare_depends(const struct call *call, unsigned secret, unsigned output, size_t at) {
    if (output == 1) return secret != FIRST;
    return secret != SELECTIONS || shape.mode == 1 || at >= call->header + c();
}

/* Every masked byte is under a pad, and a pad is a hash of a row that is made of the secret and the taken set. */
static int answer_depends(const struct call *call, unsigned secret, unsigned output, size_t at) {
    (void)call, (void)secret, (void)output, (void)at;
    return 1;
}

/* Byte `at` of what is opened: selections make a difference where its row's masked strings differ in it. */
static int open_depends(const struct call *call, unsigned secret, unsigned output, size_t at) {
    (void)output;
    const uint8_t *row = call->received.bytes + HEADER + at / shape.bytes * shape.places * shape.bytes + at % shape.bytes;
    int differ = secret == KEPT;
    for (size_t r = 1; r < shape.places && !differ; r++) differ = row[r * shape.bytes] != row[0];
    return differ;
}

static int small_depends(const struct call *call, unsigned secret, unsigned output, size_t at) {
    (void)output, (void)at;
    return call->secrets[secret].length > 0;
}

static struct call of_batch(enum kind kind, const char *name, const char *form) {
    struct call call = {.kind = kind};
    snprintf(call.title, sizeof call.title, "%s%s (%d, %d, %d, %d)", name, form, SHAPE);
    return call;
}

static const char *form(void) { return seeds ? " from seeds" : " from columns"; }

struct call prepare_call(void) {
    struct call call = of_batch(PREPARE, "prepare", form());
    call.run = run_prepare, call.depends = prepare_depends, call.header = HEADER;
    call.secrets[FIRST] = (struct buffer){"first", first, k() * entry()};
    call.secrets[SECOND] = (struct buffer){"second", second, k() * entry()};
    call.secrets[SELECTIONS] = (struct buffer){"selections", selections, shape.rows};
    call.outputs[0] = (struct buffer){"message", message, HEADER + k() * c()};
    call.outputs[1] = (struct buffer){"kept rows", kept, shape.rows * k() / 8};
    call.judged = seeds ? 1u << SELECTIONS : 1u << FIRST | 1u << SECOND | 1u << SELECTIONS;
    return call;
}

struct call answer_call(void) {
    struct call call = of_batch(ANSWER, "answer", form());
    call.run = run_answer, call.depends = answer_depends, call.header = HEADER;
    call.secrets[SECRET] = (struct buffer){"secret", secret, k() / 8};
    call.secrets[TAKEN] = (struct buffer){"taken", taken, k() * entry()};
    call.secrets[STRINGS] = (struct buffer){"strings", strings, volume()};
    call.received = (struct buffer){"received", message, HEADER + k() * c()};
    call.outputs[0] = (struct buffer){"message", answers, HEADER + volume()};
    call.judged = seeds ? 0 : 1u << TAKEN;
    return call;
}

struct call open_call(void) {
    struct call call = of_batch(OPEN, "open", "");
    call.run = run_open, call.depends = open_depends;
    call.secrets[CHOSEN] = (struct buffer){"selections", selections, shape.rows};
    call.secrets[KEPT] = (struct buffer){"kept rows", kept, shape.rows * k() / 8};
    call.received = (struct buffer){"received", answers, HEADER + volume()};
    call.outputs[0] = (struct buffer){"opened", opened, (size_t)shape.rows * shape.bytes};
    call.judged = 1u << CHOSEN;
    return call;
}

struct call hash_call(size_t length) {
    struct call call = {.kind = HASH, .run = run_hash, .depends = small_depends};
    call.secrets[0] = (struct buffer){"input", input, length};
    call.outputs[0] = (struct buffer){"digest", small, 32};
    snprintf(call.title, sizeof call.title, "hash of %zu bytes", length);
    return call;
}

struct call block_call(uint32_t counter) {
    struct call call = {.kind = BLOCK, .run = run_block, .depends = small_depends, .counter = counter};
    call.secrets[0] = (struct buffer){"key", key, 32};
    call.outputs[0] = (struct buffer){"block", small, 64};
    snprintf(call.title, sizeof call.title, "block %lu", (unsigned long)counter);
    return call;
}

/* The same bytes in every run. */
static void fill(uint8_t *bytes, size_t length) {
    static uint64_t state = 1;
    for (size_t i = 0; i < length; i++) {
        state = state * 6364136223846793005u + 1442695040888963407u;
        bytes[i] = (uint8_t)(state >> 56);
    }
}

static void clear_padding(uint8_t *set) {
    for (size_t i = 0; i < k() && shape.rows % 8 != 0; i++) set[i * c() + c() - 1] &= (uint8_t)((1u << shape.rows % 8) - 1);
}

static void fill_set(uint8_t *set) {
    fill(set, k() * entry());
    if (!seeds) clear_padding(set);
}

static void fill_selections(void) {
    fill(selections, shape.rows);
    for (size_t j = 0; j < shape.rows; j++) selections[j] = (uint8_t)(selections[j] % shape.places);
}

/* Stands in for the base transfers: of each pair the one that the secret names. */
static void take(void) {
    for (size_t i = 0; i < k(); i++) memcpy(taken + i * entry(), (secret[i / 8] >> i % 8 & 1 ? second : first) + i * entry(), entry());
}

void make_inputs(void) {
    fill(session, SESSION);
    fill_set(first), fill_set(second), fill_selections();
    fill(secret, k() / 8), fill(strings, volume());
    take();
}

void make_input_and_key(void) { fill(session, SESSION), fill(input, sizeof input), fill(key, sizeof key); }

static int row_is_right(size_t j) {
    return memcmp(opened + j * shape.bytes, strings + (j * shape.places + selections[j]) * shape.bytes, shape.bytes) == 0;
}

size_t first_wrong_row(void) {
    size_t j = 0;
    while (j < shape.rows && row_is_right(j)) j++;
    return j;
}
