/* How much stack each exported call takes, in bytes. Every call runs once, on a thread of its own whose stack was painted before; afterwards the
 * lowest byte that lost its paint is looked for. Counted from the frame that calls, so with the arguments that are handed over on the stack.
 * Room that a call sets aside at its deepest point and never writes to is not seen. */
#include <pthread.h>
#include <stdio.h>
#include <stdlib.h>
#include <string.h>
#include <sys/mman.h>

#include "adunwezi.h"

enum { STACK = 4 << 20, PAINT = 0xa5, MOST = 33000, SHAPES = 4 };

static const struct shape { uint8_t mode; uint16_t rows, places; uint8_t bytes; } shapes[SHAPES] = {
    {1, 1024, 2, 16}, {2, 1024, 16, 2}, {2, 128, 256, 1}, {2, 4, 256, 32},
};

/* The call at hand: its shape, whether its sets are seeds, and a length for the calls that have no shape. */
static struct shape shape;
static int seeds;
static size_t length;

/* Sets of zeros are lawful in both forms, and no call takes another way because of what the bytes are. */
static uint8_t zeros[65536], selections[1024];
static uint8_t columns[MOST], kept[MOST], answers[MOST], opened[MOST], text[128];

static size_t k(void) { return shape.mode == 1 ? 128 : 256; }
static size_t c(void) { return (shape.rows + 7u) / 8; }
static size_t set(void) { return k() * (seeds ? 32 : c()); }
static size_t strings(void) { return (size_t)shape.rows * shape.places * shape.bytes; }

#define SHAPE shape.mode, shape.rows, shape.places, shape.bytes

static uint64_t nothing(void) { return 0; }

static uint64_t prepare(void) {
    return (seeds ? adw_prepare_from_seeds : adw_prepare_from_columns)(
        SHAPE, zeros, 12, zeros, set(), zeros, set(), selections, shape.rows, columns, 27 + k() * c(), kept, shape.rows * k() / 8);
}

static uint64_t answer(void) {
    return (seeds ? adw_answer_from_seeds : adw_answer_from_columns)(
        SHAPE, zeros, 12, zeros, k() / 8, zeros, set(), zeros, strings(), columns, 27 + k() * c(), answers, 27 + strings());
}

static uint64_t open_answers(void) {
    return adw_open(SHAPE, zeros, 12, selections, shape.rows, kept, shape.rows * k() / 8, answers, 27 + strings(), opened,
                    (size_t)shape.rows * shape.bytes);
}

static uint64_t hash(void) { return adw_hash(zeros, length, text, 32); }
static uint64_t block(void) { return adw_cipher_block(zeros, 32, zeros, 12, 0, text, 64); }
static uint64_t list_columns(void) { return adw_list(columns, 27 + k() * c(), text, 128) == 0; }
static uint64_t list_refused(void) { return adw_list(zeros, length, text, 128) == 0; }

struct trial { uint64_t (*call)(void); uint8_t *stack; uint64_t verdict; size_t used; };

static void *try(void *argument) {
    struct trial *trial = argument;
    uint8_t *frame = __builtin_frame_address(0), *lowest = trial->stack;
    trial->verdict = trial->call();
    while (*(volatile uint8_t *)lowest == PAINT) lowest++;
    trial->used = (size_t)(frame - lowest);
    return NULL;
}

static size_t used_by(uint64_t (*call)(void)) {
    struct trial trial = {.call = call};
    trial.stack = mmap(NULL, STACK, PROT_READ | PROT_WRITE, MAP_PRIVATE | MAP_ANONYMOUS | MAP_STACK, -1, 0);
    pthread_attr_t attributes;
    pthread_t thread;
    if (trial.stack == MAP_FAILED || pthread_attr_init(&attributes) != 0) abort();
    memset(trial.stack, PAINT, STACK);
    if (pthread_attr_setstack(&attributes, trial.stack, STACK) != 0) abort();
    if (pthread_create(&thread, &attributes, try, &trial) != 0 || pthread_join(thread, NULL) != 0) abort();
    munmap(trial.stack, STACK);
    if (trial.verdict != 0) {
        fprintf(stderr, "bench/stack: a call that should succeed gave %u at %u\n", ADW_CODE(trial.verdict), ADW_PLACE(trial.verdict));
        exit(1);
    }
    return trial.used;
}

/* Without what the trial itself takes. */
static size_t stack_of(uint64_t (*call)(void)) {
    return used_by(call) - used_by(nothing);
}

int main(void) {
    static const struct { const char *name; uint64_t (*call)(void); int seeds; } calls[] = {
        {"prepare from columns", prepare, 0}, {"answer from columns", answer, 0},
        {"prepare from seeds", prepare, 1}, {"answer from seeds", answer, 1}, {"open", open_answers, 1},
    };
    printf("| call | (1, 1024, 2, 16) | (2, 1024, 16, 2) | (2, 128, 256, 1) | (2, 4, 256, 32) |\n| --- | ---: | ---: | ---: | ---: |\n");
    /* Each shape's calls go in this order, as each needs what the one before it wrote. */
    size_t used[sizeof calls / sizeof *calls][SHAPES];
    for (size_t s = 0; s < SHAPES; s++)
        for (size_t i = 0; i < sizeof calls / sizeof *calls; i++) {
            shape = shapes[s], seeds = calls[i].seeds;
            used[i][s] = stack_of(calls[i].call);
        }
    for (size_t i = 0; i < sizeof calls / sizeof *calls; i++) {
        printf("| %s |", calls[i].name);
        for (size_t s = 0; s < SHAPES; s++) printf(" %zu |", used[i][s]);
        printf("\n");
    }

    printf("\n| call | stack |\n| --- | ---: |\n");
    static const size_t hashed[] = {48, 4096, 65535};
    for (size_t i = 0; i < sizeof hashed / sizeof *hashed; i++) {
        length = hashed[i];
        printf("| hash of %zu bytes | %zu |\n", length, stack_of(hash));
    }
    printf("| block | %zu |\n", stack_of(block));
    shape = shapes[1], seeds = 1;
    if (prepare() != 0) return 1;
    printf("| listing of a column message of %zu bytes | %zu |\n", 27 + k() * c(), stack_of(list_columns));
    length = sizeof zeros;
    printf("| listing of %zu bytes that are no message | %zu |\n", length, stack_of(list_refused));
    return 0;
}
