/* The oblivious-transfer extension layer, for C.
 *
 * A buyer and a supplier have k pairs of seeds between them from base transfers made elsewhere: the buyer
 * has both seeds of each pair, the supplier the one that its secret names. The buyer prepares, the supplier
 * answers, the buyer opens.
 *
 * A batch has a shape: mode 1 (pairs) or 2 (choices); rows m; places n in a row; bytes l of a string. k is
 * 128 in mode 1 and 256 in mode 2; c is m / 8 rounded up. Bit i of a byte string is bit i % 8, least
 * significant first, of byte i / 8. A column is c bytes, and its bits from m upward are padding and zero.
 * Strings stand at byte (j * n + r) * l for row j and place r, kept rows at j * k / 8. A selection is one
 * byte.
 *
 * Every buffer is a pointer and its length; a pointer is not null, also where the length is 0. A buffer
 * that a call writes overlaps no other buffer of that call. Calls keep nothing between them and take no
 * memory but the stack.
 *
 * A verdict is code * 2^32 + place, so success is 0. On any refusal every lent output holds its old bytes.
 * 1 to 9 are tried in number order, each where it applies, and then the message from its front.
 *
 *   code  given when                               place
 *    1    mode is neither 1 nor 2                  0
 *    2    m is 0 or above 1,024                    0
 *    3    n is not 2 (mode 1), not 2 to 256 (2)    0
 *    4    l is 0 or above 32                       0
 *    5    m * n * l is above 32,768                0
 *    6    a lent input has the wrong length        its number among the call's inputs, from 1
 *    7    a lent output has the wrong length       its number among the call's outputs, from 1
 *    8    a selection is n or more                 the first such row
 *    9    a handed-in column has padding set       the column; k + column in the second set
 *   10    a field is malformed, or bytes are over  the byte where its header begins, or the first one left over
 *   11    the message has another shape            the first differing byte, 0 to 5: mode, m (2), n (2), l
 *   12    the message has another session          the first differing byte, 0 to 11
 *   13    a message column has padding set         the column
 *
 * What is outside: base transfers, random numbers, transport, a party that breaks the rules, and a session
 * number used twice. */
#ifndef ADUNWEZI_H
#define ADUNWEZI_H

#include <stddef.h>
#include <stdint.h>

#define ADW_CODE(verdict) ((uint32_t)((verdict) >> 32))
#define ADW_PLACE(verdict) ((uint32_t)((verdict) & 0xffffffffu))

#ifdef __cplusplus
extern "C" {
#endif

/* SHA-256 of input, at most 65,535 bytes, into digest, 32 bytes. Refusals: 6 at 1 for a longer input, then
 * 7 at 1 for another length of digest; digest is then as it was. */
uint64_t adw_hash(const uint8_t *input, size_t input_len, uint8_t *digest, size_t digest_len);

/* One ChaCha20 block of RFC 8439, for any counter: key 32 bytes, nonce 12, into block, 64. Refusals: 6 at 1
 * for the key's length, 6 at 2 for the nonce's, then 7 at 1 for the block's; block is then as it was. */
uint64_t adw_cipher_block(const uint8_t *key, size_t key_len, const uint8_t *nonce, size_t nonce_len, uint32_t counter,
                          uint8_t *block, size_t block_len);

/* The buyer's first call, from seeds. Inputs: session 12; first and second seeds of all pairs, 32 * k each;
 * selections m. Outputs: message, for the supplier, 27 + k * c; kept rows, for opening and for nobody else,
 * m * k / 8. Refusals: 1 to 8; both outputs are then as they were. */
uint64_t adw_prepare_from_seeds(uint8_t mode, uint16_t rows, uint16_t places, uint8_t bytes,
                                const uint8_t *session, size_t session_len, const uint8_t *first, size_t first_len,
                                const uint8_t *second, size_t second_len, const uint8_t *selections, size_t selections_len,
                                uint8_t *message, size_t message_len, uint8_t *kept, size_t kept_len);

/* The same from columns that were expanded already: first and second are k * c bytes each.
 * Refusals: 1 to 9; both outputs are then as they were. */
uint64_t adw_prepare_from_columns(uint8_t mode, uint16_t rows, uint16_t places, uint8_t bytes,
                                  const uint8_t *session, size_t session_len, const uint8_t *first, size_t first_len,
                                  const uint8_t *second, size_t second_len, const uint8_t *selections, size_t selections_len,
                                  uint8_t *message, size_t message_len, uint8_t *kept, size_t kept_len);

/* The supplier's call, from seeds. Inputs: session 12; secret k / 8; taken seeds 32 * k, of pair i the
 * first where bit i of the secret is 0 and the second where it is 1; strings m * n * l. The received
 * message may have any length. Output: message, for the buyer, 27 + m * n * l. Refusals: 1 to 7, then 10 to
 * 13 of the received message; the output is then as it was. */
uint64_t adw_answer_from_seeds(uint8_t mode, uint16_t rows, uint16_t places, uint8_t bytes,
                               const uint8_t *session, size_t session_len, const uint8_t *secret, size_t secret_len,
                               const uint8_t *taken, size_t taken_len, const uint8_t *strings, size_t strings_len,
                               const uint8_t *received, size_t received_len, uint8_t *message, size_t message_len);

/* The same from columns that were expanded already: taken is k * c bytes.
 * Refusals: 1 to 7, 9, then 10 to 13 of the received message; the output is then as it was. */
uint64_t adw_answer_from_columns(uint8_t mode, uint16_t rows, uint16_t places, uint8_t bytes,
                                 const uint8_t *session, size_t session_len, const uint8_t *secret, size_t secret_len,
                                 const uint8_t *taken, size_t taken_len, const uint8_t *strings, size_t strings_len,
                                 const uint8_t *received, size_t received_len, uint8_t *message, size_t message_len);

/* The buyer's second call. Inputs: session 12; selections m, as they were prepared; kept rows m * k / 8.
 * The received message may have any length. Output: opened, the selected string of each row, m * l.
 * Refusals: 1 to 8, then 10 to 12 of the received message; the output is then as it was. */
uint64_t adw_open(uint8_t mode, uint16_t rows, uint16_t places, uint8_t bytes,
                  const uint8_t *session, size_t session_len, const uint8_t *selections, size_t selections_len,
                  const uint8_t *kept, size_t kept_len, const uint8_t *received, size_t received_len,
                  uint8_t *opened, size_t opened_len);

/* Describes a message of any length in ASCII: three lines with its kind and shape, its session and its
 * block's length, or the one line "refused CODE at PLACE" with 1 to 5, 10 or 13. The text goes to the front
 * of text, a buffer of 128 bytes; the result is its length. Where the buffer is not 128 bytes long the
 * result is 0 and the buffer as it was. */
size_t adw_list(const uint8_t *message, size_t message_len, uint8_t *text, size_t text_len);

#ifdef __cplusplus
}
#endif

#endif
