/* Birdovesta for C: encode a payload into a line word,
 * whole or from pieces (a stream), check a full word,
 * check a line word. The same for the two coax codes:
 * encode a payload into a word, whole or from pieces,
 * check a word.
 *
 * Link libhost.a (x86-64 Linux). Nothing is allocated,
 * nothing is kept from one call to the next: a stream's
 * state is kept by the host.
 *
 *
 * Bits in bytes
 *
 * Places count from 0. Bit n is in byte n / 8, with
 * weight 2 to the power n mod 8. A run of b bits takes
 * b / 8 bytes, rounded up. The unused high bits of its
 * last byte are 0.
 *
 * payload     K bits, K from 257 to 14,392: data
 *             blocks of 257 bits, 1 to 56 of them
 * full word   17,664 bits in 2,208 bytes, in inner order:
 *             14,592 payload places, of which 14,592 - K
 *             are shortened, then 3,072 parity places
 * line word   K + 2,570 bits: the payload, outgoing
 *             parity bits 0 to 2,559, then the
 *             delimiter's 10 bits, lowest first
 *
 * The coax codes are named by the bits of their words.
 * Nothing is shortened, and there are no lists and no
 * delimiter.
 *
 * code 16200  16,200 bits in 2,025 bytes: 14,400 payload
 *             bits, then 1,800 parity bits
 * code 5940   5,940 bits in 743 bytes: 5,040 payload
 *             bits, then 900 parity bits; the last byte
 *             has 4 unused bits
 *
 *
 * The two lists
 *
 * Each call of the fibre code is lent two lists, one for
 * each interleaver. A list names each of its places
 * once, in any order. Entry t is bytes 2t and 2t + 1,
 * low byte first. Entries and places count from 0.
 *
 * first       14,592 entries in 29,184 bytes. The padded
 *             payload is the payload, then zeros up to
 *             place 14,591. Entry t names the padded
 *             place that goes to inner place t.
 * second      3,072 entries in 6,144 bytes. Entry t names
 *             the inner parity place that becomes
 *             outgoing parity bit t. The last 512 are not
 *             sent.
 *
 * Inner place t is shortened where entry t of first is K
 * or more. The checks are those of the full word, in
 * inner order.
 *
 * The published lists are not in here: the caller gives
 * them. The pair that changes nothing, where entry t is
 * t, does NOT give the published words.
 *
 *
 * Streams
 *
 * A payload can be given in pieces, cut anywhere. A
 * stream holds the bits given so far by their checks
 * alone. The finish writes what follows the payload, and
 * makes the stream fresh again. The payload itself is the
 * host's to send.
 *
 * A stream's state is 400 bytes, which the host keeps:
 * bytes 0 to 7     the number of its code, low byte first
 * bytes 8 to 15    the bits held, low byte first
 * bytes 16 to 399  the running checks, 384 bytes: check n
 *                  is bit n of them
 *
 * fibre       number 1, at most 14,392 bits; all 3,072
 *             running checks are in use
 * code 16200  number 2, at most 14,400 bits; the first
 *             1,800 running checks are in use
 * code 5940   number 3, at most 5,040 bits; the first
 *             900 running checks are in use
 *
 * A fresh stream holds 0 bits and checks that are all 0:
 * byte 0 is 1, 2 or 3, and the 399 others are 0. It must
 * be put there before the first piece.
 *
 * A call of one code refuses the stream of another. The
 * state may be copied, stored and brought back, and may
 * be any bytes: all of it is tested at each call. Where
 * it is allowed, the answer follows from it.
 *
 * A stream keeps no lists. The same two must be lent to
 * every piece of a payload and to its finish. Nothing
 * refuses others, but the parity is then not that of the
 * payload.
 *
 *
 * What the caller answers for
 *
 * The library can't test this:
 * - Each pointer leads to at least as many bytes as the
 *   count beside it says. It isn't NULL, even where the
 *   count is 0.
 * - The bytes to be written (line or word, in the
 *   encoders; the stream, and tail or parity, in the
 *   calls of a stream) overlap no other bytes that the
 *   call is lent.
 * - Nobody else writes to any of them during the call.
 * All of this holds of the lists too.
 * All else is tested and refused by a number. The lists
 * are tested at each call.
 *
 *
 * The answer of each call
 *
 * 0               written, held or accepted
 * 1 to 65,535     refused, by this number:
 *   1  bits is 0 or above 14,392
 *   2  too many or too few bytes
 *   3  an unused high bit is 1
 *   4  the delimiter is above 1,023
 *   5  the output is shorter than needed
 *   6  more than 14,392 bits with this piece
 *   7  the stream's state is not allowed
 *  10  bits is not a multiple of 257
 *  12  the stream serves another code
 *  16  a list is no reordering of its places
 *  17  the stream is not 400 bytes
 * else            not accepted, for a cause:
 *   cause * 2^32 + count * 2^16 + place
 *   1  shortened: a shortened place is 1;
 *      the lowest such inner place, 0 to 14,591
 *   2  check: a check fails;
 *      the lowest failing row, 0 to 3,071, and as
 *      count how many rows fail, 1 to 3,072
 *   3  parity: a sent parity bit isn't the encoder's;
 *      the lowest such outgoing place, 0 to 2,559
 *   4  delimiter: it isn't the one given;
 *      its lowest differing bit, 0 to 9
 *   For the other causes count is 0.
 *
 * Refusal 16: the bytes of first are not 29,184, those of
 * second are not 6,144, an entry is no place of its
 * list, or two entries of a list name the same place.
 *
 * In the calls of a stream:
 * - Refusals 1 and 10 are of the finish, and bits are
 *   those held.
 * - Refusal 17: stream_bytes is not 400. It goes before
 *   every other.
 * - Refusal 12: the number of the code is not that of the
 *   call, be it another code's or unknown.
 * - Refusal 7: more bits are held than the code allows,
 *   or a running check past those in use is 1. The fibre
 *   code has none past them.
 *
 * In the calls of a coax code:
 * - Refusal 1: bits is not 14,400 (code 16200), or not
 *   5,040 (code 5940).
 * - Refusal 6: more than that with this piece.
 * - Refusals 4, 10 and 16 don't arise.
 * - The only cause is 2, check. The row is 0 to 1,799,
 *   or 0 to 899; count is 1 to 1,800, or 1 to 900.
 *
 * A refused call leaves every byte as it was, those of
 * the stream among them. Where several numbers fit, the
 * first in the call's order is given. The checks write
 * nothing at all.
 *
 *
 * Threads
 *
 * Any number of threads may make any of the calls at
 * once. The archive has no variables, so no call knows
 * of another. The only condition is the one that the
 * caller answers for above: nobody else writes to the
 * bytes that a call is lent. Several calls may read the
 * same bytes, such as the same lists. Calls on one stream
 * write to it, so they are made one after another.
 *
 *
 * Stack
 *
 * A call takes at most so many bytes of stack:
 *   BIRDOVESTA_ENCODE_STACK
 *   BIRDOVESTA_CHECK_WORD_STACK
 *   BIRDOVESTA_CHECK_LINE_STACK
 *   BIRDOVESTA_PIECE_STACK
 *   BIRDOVESTA_FINISH_STACK
 *   BIRDOVESTA_ENCODE_COAX_STACK
 *   BIRDOVESTA_CHECK_COAX_STACK
 *   BIRDOVESTA_PIECE_COAX_STACK
 *   BIRDOVESTA_FINISH_COAX_STACK
 * The last four are for both coax codes.
 * Measured for every K, every kind of answer and several
 * pairs of lists, and rounded up. What is the host's own
 * is not counted:
 * - What memcpy and memset take.
 * - What a dynamic linker takes, if it looks these two
 *   up at their first call. That can be some thousands
 *   of bytes. Linked statically, or with -z now, it's
 *   nothing.
 * - Signal handlers.
 *
 *
 * What the archive needs
 *
 * Two functions of the C library, and nothing else:
 * needs memcpy
 * needs memset
 */
#ifndef BIRDOVESTA_H
#define BIRDOVESTA_H

#include <stddef.h>
#include <stdint.h>

#ifdef __cplusplus
extern "C" {
#endif

enum birdovesta_cause {
    BIRDOVESTA_SHORTENED = 1,
    BIRDOVESTA_CHECK = 2,
    BIRDOVESTA_PARITY = 3,
    BIRDOVESTA_DELIMITER = 4
};

/* Bytes of a full word, and of the line word of K bits. */
#define BIRDOVESTA_WORD_BYTES 2208
#define BIRDOVESTA_LINE_BYTES(K) (((K) + 2570 + 7) / 8)

/* Bytes of each list. */
#define BIRDOVESTA_FIRST_BYTES 29184
#define BIRDOVESTA_SECOND_BYTES 6144

/* Bytes of a word of each coax code. */
#define BIRDOVESTA_WORD_16200_BYTES 2025
#define BIRDOVESTA_WORD_5940_BYTES 743

/* Bytes of a stream's state, and of what a finish writes:
 * the fibre code's tail, each coax code's parity. */
#define BIRDOVESTA_STREAM_BYTES 400
#define BIRDOVESTA_TAIL_BYTES 322
#define BIRDOVESTA_PARITY_16200_BYTES 225
#define BIRDOVESTA_PARITY_5940_BYTES 113

/* Bytes of stack that each call takes at most. */
#define BIRDOVESTA_ENCODE_STACK 24576
#define BIRDOVESTA_CHECK_WORD_STACK 24576
#define BIRDOVESTA_CHECK_LINE_STACK 24576
#define BIRDOVESTA_PIECE_STACK 24576
#define BIRDOVESTA_FINISH_STACK 24576
#define BIRDOVESTA_ENCODE_COAX_STACK 2048
#define BIRDOVESTA_CHECK_COAX_STACK 1024
#define BIRDOVESTA_PIECE_COAX_STACK 4096
#define BIRDOVESTA_FINISH_COAX_STACK 2048

/* The parts of an answer above 65,535. */
#define BIRDOVESTA_CAUSE(answer) ((answer) >> 32)
#define BIRDOVESTA_COUNT(answer) ((answer) >> 16 & 65535)
#define BIRDOVESTA_PLACE(answer) ((answer) & 65535)

/* Encode.
 * Writes the line word of the first `bits` bits of
 * payload to the start of line. Later bytes of line are
 * untouched.
 * payload_bytes: bits / 8, rounded up.
 * delimiter:     0 to 1,023.
 * first_bytes:   29,184.
 * second_bytes:  6,144.
 * line_bytes:    at least BIRDOVESTA_LINE_BYTES(bits).
 * Refusals, in order: 16, 1, 10, 2, 3, 4, 5.
 */
uint64_t birdovesta_encode(
    size_t bits,
    const uint8_t *payload, size_t payload_bytes,
    size_t delimiter,
    const uint8_t *first, size_t first_bytes,
    const uint8_t *second, size_t second_bytes,
    uint8_t *line, size_t line_bytes);

/* Check a full word whose payload has `bits` bits.
 * The word is in inner order, and is not reordered.
 * Accepted where each shortened place is 0 and all 3,072
 * checks hold. Else the cause is shortened or, where no
 * shortened place is 1, check.
 * word_bytes:   2,208.
 * first_bytes:  29,184. It tells the shortened places.
 * second_bytes: 6,144. Only tested.
 * Refusals, in order: 16, 1, 10, 2.
 */
uint64_t birdovesta_check_word(
    size_t bits,
    const uint8_t *word, size_t word_bytes,
    const uint8_t *first, size_t first_bytes,
    const uint8_t *second, size_t second_bytes);

/* Check a line word whose payload has `bits` bits.
 * Accepted where it is the one that the encoder writes
 * for its payload, this delimiter and these lists. Else
 * the cause is parity or, where all sent parity is
 * right, delimiter. A parity place is an outgoing one:
 * bit `bits` + place of the line word.
 * line_bytes:   exactly BIRDOVESTA_LINE_BYTES(bits).
 * delimiter:    0 to 1,023.
 * first_bytes:  29,184.
 * second_bytes: 6,144.
 * Refusals, in order: 16, 1, 10, 2, 3, 4.
 */
uint64_t birdovesta_check_line(
    size_t bits,
    const uint8_t *line, size_t line_bytes,
    size_t delimiter,
    const uint8_t *first, size_t first_bytes,
    const uint8_t *second, size_t second_bytes);

/* Give a stream of the fibre code its next piece.
 * The first `bits` bits of piece follow those held: they
 * are reordered by first, and their checks are added to
 * the running ones. Only the stream is written.
 * stream_bytes: 400.
 * bits:         0 or more. With those held, at most
 *               14,392.
 * piece_bytes:  bits / 8, rounded up.
 * first_bytes:  29,184.
 * second_bytes: 6,144. Only tested.
 * Refusals, in order: 17, 16, 12, 7, 2, 3, 6.
 */
uint64_t birdovesta_stream_piece(
    uint8_t *stream, size_t stream_bytes,
    size_t bits,
    const uint8_t *piece, size_t piece_bytes,
    const uint8_t *first, size_t first_bytes,
    const uint8_t *second, size_t second_bytes);

/* Finish a stream of the fibre code.
 * Writes the outgoing parity bits 0 to 2,559 of the
 * payload held, then the delimiter, to the start of tail:
 * 2,570 bits from bit 0 on, what follows the payload in
 * its line word. Later bytes of tail are untouched. The
 * stream is then the fresh one of the fibre code.
 * stream_bytes: 400. The bits held are whole data blocks.
 * delimiter:    0 to 1,023.
 * first_bytes:  29,184. Only tested.
 * second_bytes: 6,144.
 * tail_bytes:   at least 322.
 * Refusals, in order: 17, 16, 12, 7, 1, 10, 4, 5.
 */
uint64_t birdovesta_stream_finish(
    uint8_t *stream, size_t stream_bytes,
    size_t delimiter,
    const uint8_t *first, size_t first_bytes,
    const uint8_t *second, size_t second_bytes,
    uint8_t *tail, size_t tail_bytes);

/* Encode by the coax code 16200.
 * Writes the payload, then its parity, to the start of
 * word. Later bytes of word are untouched.
 * bits:          14,400.
 * payload_bytes: 1,800.
 * word_bytes:    at least 2,025.
 * Refusals, in order: 1, 2, 5.
 */
uint64_t birdovesta_encode_16200(
    size_t bits,
    const uint8_t *payload, size_t payload_bytes,
    uint8_t *word, size_t word_bytes);

/* Check a word of the coax code 16200.
 * Accepted where all 1,800 checks hold. Else the cause
 * is check.
 * bits:       14,400.
 * word_bytes: 2,025. No bit of them is unused, so
 *             refusal 3 doesn't arise.
 * Refusals, in order: 1, 2, 3.
 */
uint64_t birdovesta_check_16200(
    size_t bits,
    const uint8_t *word, size_t word_bytes);

/* Give a stream of the coax code 16200 its next piece.
 * The first `bits` bits of piece follow those held: their
 * checks are added to the running ones. Only the stream
 * is written.
 * stream_bytes: 400.
 * bits:         0 or more. With those held, at most
 *               14,400.
 * piece_bytes:  bits / 8, rounded up.
 * Refusals, in order: 17, 12, 7, 2, 3, 6.
 */
uint64_t birdovesta_stream_piece_16200(
    uint8_t *stream, size_t stream_bytes,
    size_t bits,
    const uint8_t *piece, size_t piece_bytes);

/* Finish a stream of the coax code 16200.
 * Writes the 1,800 parity bits of the payload held to the
 * start of parity. Later bytes of parity are untouched.
 * The stream is then the fresh one of this code.
 * stream_bytes: 400. The bits held are 14,400.
 * parity_bytes: at least 225.
 * Refusals, in order: 17, 12, 7, 1, 5.
 */
uint64_t birdovesta_stream_finish_16200(
    uint8_t *stream, size_t stream_bytes,
    uint8_t *parity, size_t parity_bytes);

/* Encode by the coax code 5940.
 * Writes the payload, then its parity, to the start of
 * word, and 0 in the 4 unused bits. Later bytes of word
 * are untouched.
 * bits:          5,040.
 * payload_bytes: 630.
 * word_bytes:    at least 743.
 * Refusals, in order: 1, 2, 5.
 */
uint64_t birdovesta_encode_5940(
    size_t bits,
    const uint8_t *payload, size_t payload_bytes,
    uint8_t *word, size_t word_bytes);

/* Check a word of the coax code 5940.
 * Accepted where all 900 checks hold. Else the cause is
 * check.
 * bits:       5,040.
 * word_bytes: 743.
 * Refusals, in order: 1, 2, 3.
 */
uint64_t birdovesta_check_5940(
    size_t bits,
    const uint8_t *word, size_t word_bytes);

/* Give a stream of the coax code 5940 its next piece.
 * The first `bits` bits of piece follow those held: their
 * checks are added to the running ones. Only the stream
 * is written.
 * stream_bytes: 400.
 * bits:         0 or more. With those held, at most
 *               5,040.
 * piece_bytes:  bits / 8, rounded up.
 * Refusals, in order: 17, 12, 7, 2, 3, 6.
 */
uint64_t birdovesta_stream_piece_5940(
    uint8_t *stream, size_t stream_bytes,
    size_t bits,
    const uint8_t *piece, size_t piece_bytes);

/* Finish a stream of the coax code 5940.
 * Writes the 900 parity bits of the payload held to the
 * start of parity, and 0 in the 4 unused bits. Later
 * bytes of parity are untouched. The stream is then the
 * fresh one of this code.
 * stream_bytes: 400. The bits held are 5,040.
 * parity_bytes: at least 113.
 * Refusals, in order: 17, 12, 7, 1, 5.
 */
uint64_t birdovesta_stream_finish_5940(
    uint8_t *stream, size_t stream_bytes,
    uint8_t *parity, size_t parity_bytes);

#ifdef __cplusplus
}
#endif

#endif
