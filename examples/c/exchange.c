/* A whole exchange in C: a buyer learns one price in each row of a supplier's table, and the supplier does not
 * learn which. From the repository's root, once target/host/libcapi.a is built:
 *
 *   cc -O2 -Iinclude examples/c/exchange.c target/host/libcapi.a -o target/host/exchange && target/host/exchange
 */
#include <stdio.h>
#include <stdlib.h>
#include <string.h>

#include "adunwezi.h"

enum { MODE = 2, M = 3, N = 4, L = 8, K = 256, C = (M + 7) / 8, ROW = K / 8, SEED = 32 };

/* Stands in for a random source, which the layer leaves to its callers: never use this for real seeds or secrets. */
static void fill(uint8_t *bytes, size_t length, uint8_t from) {
    for (size_t i = 0; i < length; i++) bytes[i] = (uint8_t)(from + 37 * i + i / 256);
}

static void must(const char *call, uint64_t verdict) {
    if (verdict == 0) return;
    fprintf(stderr, "%s: refused %u at %u\n", call, ADW_CODE(verdict), ADW_PLACE(verdict));
    exit(1);
}

/* Base transfers are made elsewhere; here the supplier simply takes of each pair the seed that its secret names. */
static void take(const uint8_t *first, const uint8_t *second, const uint8_t *secret, uint8_t *taken) {
    for (size_t i = 0; i < K; i++) {
        const uint8_t *from = secret[i / 8] >> (i % 8) & 1 ? second : first;
        memcpy(taken + SEED * i, from + SEED * i, SEED);
    }
}

int main(void) {
    static const char *names[M] = {"barley", "millet", "teff"};
    static const char prices[M * N * L + 1] = "  210.00  214.50  220.00  231.25"
                                              "  180.75  182.00  190.00  197.50"
                                              "  305.00  311.00  320.50  342.00";
    static const uint8_t selections[M] = {2, 0, 3};
    static uint8_t first[SEED * K], second[SEED * K], taken[SEED * K];
    static uint8_t columns[27 + K * C], kept[M * ROW], answers[27 + M * N * L], opened[M * L];
    uint8_t session[12], secret[ROW], text[128];

    /* Before: seeds at the buyer, a secret and the seeds it names at the supplier, and a session never used before. */
    fill(session, sizeof session, 1);
    fill(first, sizeof first, 5);
    fill(second, sizeof second, 9);
    fill(secret, sizeof secret, 77);
    take(first, second, secret, taken);

    /* The buyer prepares, and sends `columns`. */
    must("prepare", adw_prepare_from_seeds(MODE, M, N, L, session, sizeof session, first, sizeof first,
                                           second, sizeof second, selections, sizeof selections,
                                           columns, sizeof columns, kept, sizeof kept));
    printf("%.*s", (int)adw_list(columns, sizeof columns, text, sizeof text), (const char *)text);

    /* The supplier answers, and sends `answers`. */
    must("answer", adw_answer_from_seeds(MODE, M, N, L, session, sizeof session, secret, sizeof secret,
                                         taken, sizeof taken, (const uint8_t *)prices, sizeof prices - 1,
                                         columns, sizeof columns, answers, sizeof answers));
    printf("%.*s", (int)adw_list(answers, sizeof answers, text, sizeof text), (const char *)text);

    /* The buyer opens one price a row. */
    must("open", adw_open(MODE, M, N, L, session, sizeof session, selections, sizeof selections,
                          kept, sizeof kept, answers, sizeof answers, opened, sizeof opened));
    for (size_t j = 0; j < M; j++) {
        printf("%s, grade %d:%.*s\n", names[j], selections[j], L, (const char *)opened + j * L);
        if (memcmp(opened + j * L, prices + (j * N + selections[j]) * L, L) != 0) return 1;
    }

    /* A message cut short on its way is refused, and nothing is written. */
    uint64_t refused = adw_open(MODE, M, N, L, session, sizeof session, selections, sizeof selections,
                                kept, sizeof kept, answers, sizeof answers - 1, opened, sizeof opened);
    printf("cut short: refused %u at %u\n", ADW_CODE(refused), ADW_PLACE(refused));
    return 0;
}
