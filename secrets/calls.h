/* The calls of include/adunwezi.h as this test makes them: what is secret in each, what it writes, and what of that depends on which secret. */
#ifndef CALLS_H
#define CALLS_H

#include "marks.h"

enum { HEADER = 27, MOST_SECRETS = 3, MOST_OUTPUTS = 2 };

/* The batch at hand: its shape, and whether its sets are seeds or columns. */
extern struct shape { uint8_t mode; uint16_t rows, places; uint8_t bytes; } shape;
extern int seeds;

size_t k(void);
size_t c(void);

enum { FIRST, SECOND, SELECTIONS }; /* prepare's secrets */
enum { SECRET, TAKEN, STRINGS };    /* answer's */
enum { CHOSEN, KEPT };              /* open's: the selections once more, and the kept rows */

enum kind { PREPARE, ANSWER, OPEN, HASH, BLOCK, KINDS };

struct call {
    enum kind kind;
    char title[64];
    uint64_t (*run)(const struct call *);
    struct buffer secrets[MOST_SECRETS], received, outputs[MOST_OUTPUTS]; /* where one has no name the call has fewer */
    unsigned judged;  /* bit s is set where refusal 8 or 9 is about secret s */
    size_t header;    /* the first output begins with so many bytes that are made of the shape and the session alone */
    uint32_t counter; /* the block's */
    /* Whether byte `at` of an output, past the header, depends on a secret. Where it does not it may be marked all the same. */
    int (*depends)(const struct call *, unsigned secret, unsigned output, size_t at);
};

struct call prepare_call(void);
struct call answer_call(void);
struct call open_call(void);
struct call hash_call(size_t length);
struct call block_call(uint32_t counter);

/* Makes what both parties of the batch at hand begin with. */
void make_inputs(void);

/* The same for the hash and the block. */
void make_input_and_key(void);

/* The first row that was not opened to the string at its selected place, and m where there is none. */
size_t first_wrong_row(void);

#endif
