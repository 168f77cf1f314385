/* The stack that each call takes, against the macros of
 * include/birdovesta.h. The coax codes share theirs, so each
 * of their calls is measured for both.
 *
 * A call is run on a stack of its own, every byte of which is
 * set to one value before. The deepest byte that has changed
 * tells what was taken; a call that does nothing is the zero.
 * Every input is run with two values, as a call may write the
 * very value that is there. Each call is made once before it
 * is measured: where the C library is linked dynamically, its
 * functions may be looked up at their first call.
 *
 * The inputs lead to every kind of answer, for each K with two
 * pairs of lists and for each coax code. What must be answered
 * is from paper 01, W2, W8 and W9, and is compared too. A call
 * of a stream is made several times with one input, so the
 * state is put anew before each.
 *
 * Prints one fact a line, of at most 40 characters, and ends
 * with `N right, M wrong`. Exit status 1 if any is wrong.
 */
#define _XOPEN_SOURCE 700
#include "birdovesta.h"

#include <stdio.h>
#include <string.h>
#include <ucontext.h>

enum {
    STACK = 131072,
    LEAST = 257, /* one data block: the least payload */
    PAYLOAD_MOST = 14392,
    PAYLOAD_PLACES = 14592,
    PLACES = 17664,
    PARITY_PLACES = PLACES - PAYLOAD_PLACES,
    SENT = 2560,
    MOST = 2304, /* the most bytes lent */
    CHECKS_FROM = 16 /* the running checks in a state */
};

static unsigned right, wrong;

static void fact(int holds, const char *call, const char *text)
{
    printf("%s: %s%s\n", holds ? "right" : "wrong", call, text);
    if (holds)
        right++;
    else
        wrong++;
}

/* The calls, with what they are lent. */

static uint8_t payload[MOST], word[MOST], line[MOST];
static uint8_t first[BIRDOVESTA_FIRST_BYTES], second[BIRDOVESTA_SECOND_BYTES];
static size_t bits, bytes, delimiter, room;
static size_t first_bytes = sizeof first, second_bytes = sizeof second;
static uint64_t answer;

/* A stream's state, and what it is before each call; the bits
 * of a piece. */
static uint8_t stream[MOST], state[MOST];
static size_t stream_bytes = BIRDOVESTA_STREAM_BYTES, count;

static void nothing(void)
{
    answer = 0;
}

static void encode(void)
{
    answer = birdovesta_encode(bits, payload, bytes, delimiter, first, first_bytes, second, second_bytes, line, room);
}

static void check_word(void)
{
    answer = birdovesta_check_word(bits, word, bytes, first, first_bytes, second, second_bytes);
}

static void check_line(void)
{
    answer = birdovesta_check_line(bits, line, bytes, delimiter, first, first_bytes, second, second_bytes);
}

static void piece(void)
{
    memcpy(stream, state, sizeof stream);
    answer = birdovesta_stream_piece(
        stream, stream_bytes, count, payload, bytes, first, first_bytes, second, second_bytes);
}

static void finish(void)
{
    memcpy(stream, state, sizeof stream);
    answer = birdovesta_stream_finish(
        stream, stream_bytes, delimiter, first, first_bytes, second, second_bytes, line, room);
}

static const struct coax {
    uint64_t number;
    size_t payload_bits, places, word_bytes, parity_bytes;
    uint64_t (*encode)(size_t, const uint8_t *, size_t, uint8_t *, size_t);
    uint64_t (*check)(size_t, const uint8_t *, size_t);
    uint64_t (*piece)(uint8_t *, size_t, size_t, const uint8_t *, size_t);
    uint64_t (*finish)(uint8_t *, size_t, uint8_t *, size_t);
} coax_codes[] = {
    { 2, 14400, 16200, BIRDOVESTA_WORD_16200_BYTES, BIRDOVESTA_PARITY_16200_BYTES, birdovesta_encode_16200,
        birdovesta_check_16200, birdovesta_stream_piece_16200, birdovesta_stream_finish_16200 },
    { 3, 5040, 5940, BIRDOVESTA_WORD_5940_BYTES, BIRDOVESTA_PARITY_5940_BYTES, birdovesta_encode_5940,
        birdovesta_check_5940, birdovesta_stream_piece_5940, birdovesta_stream_finish_5940 },
}, *code;

static void encode_coax(void)
{
    answer = code->encode(bits, payload, bytes, word, room);
}

static void check_coax(void)
{
    answer = code->check(bits, word, bytes);
}

static void piece_coax(void)
{
    memcpy(stream, state, sizeof stream);
    answer = code->piece(stream, stream_bytes, count, payload, bytes);
}

static void finish_coax(void)
{
    memcpy(stream, state, sizeof stream);
    answer = code->finish(stream, stream_bytes, line, room);
}

/* Measuring */

static _Alignas(64) uint8_t stack[STACK];
static ucontext_t here, there;
static void (*chosen)(void);

static void start(void)
{
    chosen();
}

/* Makes the chosen call on the stack of its own. */
static void on_stack(void)
{
    getcontext(&there);
    there.uc_stack.ss_sp = stack;
    there.uc_stack.ss_size = STACK;
    there.uc_link = &here;
    makecontext(&there, start, 0);
    swapcontext(&here, &there);
}

/* How far down the stack is written to, from its top. */
static size_t depth(void (*call)(void))
{
    static const int values[] = { 0xA5, 0x5A };
    size_t deepest = 0;
    for (size_t n = 0; n < sizeof values / sizeof *values; n++) {
        uint8_t kept_as[64];
        memset(kept_as, values[n], sizeof kept_as);
        memset(stack, values[n], STACK);
        chosen = call;
        on_stack();
        size_t kept = 0;
        while (kept < STACK && memcmp(stack + kept, kept_as, sizeof kept_as) == 0)
            kept += sizeof kept_as;
        while (kept < STACK && stack[kept] == values[n])
            kept++;
        if (STACK - kept > deepest)
            deepest = STACK - kept;
    }
    return deepest;
}

struct measured {
    const char *name;
    void (*call)(void);
    size_t told; /* by the header */
    size_t taken;
    unsigned inputs, others; /* others: not answered as meant */
};

static struct measured of_encode = { "encode", encode, BIRDOVESTA_ENCODE_STACK, 0, 0, 0 };
static struct measured of_word = { "check_word", check_word, BIRDOVESTA_CHECK_WORD_STACK, 0, 0, 0 };
static struct measured of_line = { "check_line", check_line, BIRDOVESTA_CHECK_LINE_STACK, 0, 0, 0 };
static struct measured of_piece = { "piece", piece, BIRDOVESTA_PIECE_STACK, 0, 0, 0 };
static struct measured of_finish = { "finish", finish, BIRDOVESTA_FINISH_STACK, 0, 0, 0 };

static struct measured of_encode_coax = { "encode_coax", encode_coax, BIRDOVESTA_ENCODE_COAX_STACK, 0, 0, 0 };
static struct measured of_check_coax = { "check_coax", check_coax, BIRDOVESTA_CHECK_COAX_STACK, 0, 0, 0 };
static struct measured of_piece_coax = { "piece_coax", piece_coax, BIRDOVESTA_PIECE_COAX_STACK, 0, 0, 0 };
static struct measured of_finish_coax = { "finish_coax", finish_coax, BIRDOVESTA_FINISH_COAX_STACK, 0, 0, 0 };

/* A cause as it stands in an answer; count and place are left open. */
static uint64_t cause(uint64_t number)
{
    return number << 32;
}

/* One input: its stack, and whether it's answered as meant. */
static void input(struct measured *of, uint64_t meant)
{
    size_t zero = depth(nothing);
    of->call();
    size_t taken = depth(of->call) - zero;
    if (taken > of->taken)
        of->taken = taken;
    of->inputs++;
    of->others += (answer > 65535 ? cause(BIRDOVESTA_CAUSE(answer)) : answer) != meant;
}

/* Inputs */

static void flip(uint8_t *lent, size_t place)
{
    lent[place / 8] ^= (uint8_t)(1u << place % 8);
}

/* Bytes that look random, the same at every run. */
static void fill(uint8_t *lent, size_t count)
{
    static uint64_t state = 142;
    for (size_t n = 0; n < count; n++) {
        state = state * 6364136223846793005u + 1442695040888963407u;
        lent[n] = (uint8_t)(state >> 56);
    }
}

/* A run of so many bits: zeros, ones, or any. */
static void put_run(int kind, size_t run)
{
    bytes = (run + 7) / 8;
    memset(payload, kind == 0 ? 0 : 255, sizeof payload);
    if (kind == 2)
        fill(payload, bytes);
    for (size_t place = run; place < 8 * bytes; place++)
        payload[place / 8] &= (uint8_t)~(1u << place % 8);
}

/* A payload of K bits. */
static void put_payload(int kind)
{
    put_run(kind, bits);
}

/* A piece. */
static void put_piece(int kind, size_t run)
{
    put_run(kind, run);
    count = run;
}

/* A stream: its code's number, the bits held, and the whole
 * bytes of running checks in use: zeros, ones, or any. */
static void put_state(uint64_t number, uint64_t held, int kind, size_t in_use)
{
    memset(state, 0, sizeof state);
    for (size_t n = 0; n < 8; n++) {
        state[n] = (uint8_t)(number >> 8 * n);
        state[8 + n] = (uint8_t)(held >> 8 * n);
    }
    if (kind == 1)
        memset(state + CHECKS_FROM, 255, in_use / 8);
    if (kind == 2)
        fill(state + CHECKS_FROM, in_use / 8);
}

/* Lists */

static size_t entry(const uint8_t *list, size_t t)
{
    return list[2 * t] + 256u * list[2 * t + 1];
}

static void put_entry(uint8_t *list, size_t t, size_t place)
{
    list[2 * t] = (uint8_t)(place % 256);
    list[2 * t + 1] = (uint8_t)(place / 256);
}

/* The plain list or, where a step is given, entries in another
 * order: the step has no factor in common with the places. */
static void put_list(uint8_t *list, size_t places, size_t step)
{
    for (size_t t = 0; t < places; t++)
        put_entry(list, t, t * step % places);
}

/* Where a padded place goes. */
static size_t inner(size_t place)
{
    size_t t = 0;
    while (entry(first, t) != place)
        t++;
    return t;
}

/* A call with lists at fault: each list, and its length, its
 * first entry or its last place. */
static void lists_at_fault(struct measured *of)
{
    first_bytes--;
    input(of, 16);
    first_bytes++;
    second_bytes--;
    input(of, 16);
    second_bytes++;
    struct {
        uint8_t *list;
        size_t places;
    } lists[] = { { first, PAYLOAD_PLACES }, { second, PARITY_PLACES } };
    for (size_t n = 0; n < 2; n++)
        for (size_t at = 0; at < lists[n].places; at += lists[n].places - 1) {
            size_t before = entry(lists[n].list, at);
            put_entry(lists[n].list, at, lists[n].places);
            input(of, 16);
            put_entry(lists[n].list, at, entry(lists[n].list, 1));
            input(of, 16);
            put_entry(lists[n].list, at, before);
        }
}

static void encodings(void)
{
    for (int kind = 0; kind < 3; kind++) {
        put_payload(kind);
        delimiter = kind == 0 ? 0 : 1023;
        room = BIRDOVESTA_LINE_BYTES(bits);
        input(&of_encode, 0);
        room = MOST;
        input(&of_encode, 0);
    }
    room = BIRDOVESTA_LINE_BYTES(bits) - 1;
    input(&of_encode, 5);
    delimiter = 1024;
    input(&of_encode, 4);
    if (bits % 8 > 0) {
        flip(payload, bits);
        input(&of_encode, 3);
    }
    bytes++;
    input(&of_encode, 2);
    bits++;
    input(&of_encode, bits > PAYLOAD_MOST ? 1 : 10);
    bits--;
    lists_at_fault(&of_encode);
}

static void full_words(void)
{
    bytes = BIRDOVESTA_WORD_BYTES;
    memset(word, 0, sizeof word);
    input(&of_word, 0);
    size_t spoilt[] = { inner(0), inner(bits - 1), PAYLOAD_PLACES, PAYLOAD_PLACES + SENT, PLACES - 1 };
    for (size_t n = 0; n < sizeof spoilt / sizeof *spoilt; n++) {
        memset(word, 0, sizeof word);
        flip(word, spoilt[n]);
        input(&of_word, cause(BIRDOVESTA_CHECK));
    }
    fill(word, sizeof word);
    for (size_t t = 0; t < PAYLOAD_PLACES; t++)
        if (entry(first, t) >= bits)
            word[t / 8] &= (uint8_t)~(1u << t % 8);
    input(&of_word, cause(BIRDOVESTA_CHECK));
    flip(word, inner(PAYLOAD_PLACES - 1));
    input(&of_word, cause(BIRDOVESTA_SHORTENED));
    flip(word, inner(bits));
    input(&of_word, cause(BIRDOVESTA_SHORTENED));
    bytes--;
    input(&of_word, 2);
    bits++;
    input(&of_word, bits > PAYLOAD_MOST ? 1 : 10);
    bits--;
    lists_at_fault(&of_word);
}

/* The line word that the encoder writes of any payload. */
static void put_line(void)
{
    put_payload(2);
    delimiter = bits * 77 % 1024;
    room = BIRDOVESTA_LINE_BYTES(bits);
    encode();
    bytes = room;
}

static void line_words(void)
{
    put_line();
    input(&of_line, 0);
    size_t spoilt[] = { bits, bits + SENT / 2, bits + SENT - 1, bits + SENT, bits + SENT + 9 };
    for (size_t n = 0; n < sizeof spoilt / sizeof *spoilt; n++) {
        put_line();
        flip(line, spoilt[n]);
        input(&of_line, cause(n < 3 ? BIRDOVESTA_PARITY : BIRDOVESTA_DELIMITER));
    }
    delimiter = 1024;
    input(&of_line, 4);
    if ((bits + SENT + 10) % 8 > 0) {
        flip(line, bits + SENT + 10);
        input(&of_line, 3);
    }
    bytes--;
    input(&of_line, 2);
    bits++;
    input(&of_line, bits > PAYLOAD_MOST ? 1 : 10);
    bits--;
    lists_at_fault(&of_line);
}

/* Each call with a stream that it refuses, by its size, by its
 * number and by its bits held. */
static void streams_at_fault(struct measured *of, uint64_t number, uint64_t most)
{
    stream_bytes--;
    input(of, 17);
    stream_bytes += 2;
    input(of, 17);
    stream_bytes--;
    put_state(number % 3 + 1, most + 1, 2, PARITY_PLACES);
    input(of, 12);
    put_state(UINT64_MAX, UINT64_MAX, 1, PARITY_PLACES);
    input(of, 12);
    put_state(number, most + 1, 0, 0);
    input(of, 7);
    put_state(number, UINT64_MAX, 1, PARITY_PLACES);
    input(of, 7);
}

static void pieces(void)
{
    /* Whole, and from a place on. */
    for (int kind = 0; kind < 3; kind++) {
        put_state(1, 0, 0, 0);
        put_piece(kind, bits);
        input(&of_piece, 0);
        put_state(1, bits / 3, kind, PARITY_PLACES);
        put_piece(kind, bits - bits / 3);
        input(&of_piece, 0);
    }
    put_state(1, bits, 2, PARITY_PLACES);
    put_piece(0, 0);
    input(&of_piece, 0);
    put_piece(1, PAYLOAD_MOST - bits + 1);
    input(&of_piece, 6);
    put_piece(1, 9);
    flip(payload, 9);
    input(&of_piece, 3);
    bytes++;
    input(&of_piece, 2);
    streams_at_fault(&of_piece, 1, PAYLOAD_MOST);
    lists_at_fault(&of_piece);
}

static void finishes(void)
{
    for (int kind = 0; kind < 3; kind++) {
        put_state(1, bits, kind, PARITY_PLACES);
        delimiter = kind == 0 ? 0 : 1023;
        room = BIRDOVESTA_TAIL_BYTES;
        input(&of_finish, 0);
        room = MOST;
        input(&of_finish, 0);
    }
    room = BIRDOVESTA_TAIL_BYTES - 1;
    input(&of_finish, 5);
    delimiter = 1024;
    input(&of_finish, 4);
    put_state(1, bits - 1, 2, PARITY_PLACES);
    input(&of_finish, 10);
    put_state(1, 0, 2, PARITY_PLACES);
    input(&of_finish, 1);
    streams_at_fault(&of_finish, 1, PAYLOAD_MOST);
    lists_at_fault(&of_finish);
}

static void coax_encodings(void)
{
    size_t needed = code->word_bytes;
    bits = code->payload_bits;
    for (int kind = 0; kind < 3; kind++) {
        put_payload(kind);
        room = needed;
        input(&of_encode_coax, 0);
        room = MOST;
        input(&of_encode_coax, 0);
    }
    room = needed - 1;
    input(&of_encode_coax, 5);
    bytes++;
    input(&of_encode_coax, 2);
    bits++;
    input(&of_encode_coax, 1);
}

static void coax_words(void)
{
    size_t needed = code->word_bytes;
    bits = code->payload_bits;
    bytes = needed;
    memset(word, 0, sizeof word);
    input(&of_check_coax, 0);
    size_t spoilt[] = { 0, bits - 1, bits, code->places - 1 };
    for (size_t n = 0; n < sizeof spoilt / sizeof *spoilt; n++) {
        memset(word, 0, sizeof word);
        flip(word, spoilt[n]);
        input(&of_check_coax, cause(BIRDOVESTA_CHECK));
    }
    memset(word, 0, sizeof word);
    fill(word, code->places / 8);
    input(&of_check_coax, cause(BIRDOVESTA_CHECK));
    put_payload(2);
    room = needed;
    encode_coax();
    bytes = needed;
    input(&of_check_coax, 0);
    if (code->places % 8 > 0) {
        flip(word, code->places);
        input(&of_check_coax, 3);
    }
    bytes--;
    input(&of_check_coax, 2);
    bits++;
    input(&of_check_coax, 1);
}

/* The places past the checks in use: the first, the last. */
static void checks_past(struct measured *of)
{
    size_t in_use = code->places - code->payload_bits;
    for (size_t past = in_use; past < PARITY_PLACES; past += PARITY_PLACES - 1 - in_use) {
        put_state(code->number, code->payload_bits, 2, in_use);
        flip(state + CHECKS_FROM, past);
        input(of, 7);
    }
}

static void coax_pieces(void)
{
    size_t most = code->payload_bits, in_use = code->places - most;
    for (int kind = 0; kind < 3; kind++) {
        put_state(code->number, 0, 0, 0);
        put_piece(kind, most);
        input(&of_piece_coax, 0);
        put_state(code->number, most / 3 + 1, kind, in_use);
        put_piece(kind, most - most / 3 - 1);
        input(&of_piece_coax, 0);
    }
    put_state(code->number, most, 2, in_use);
    put_piece(0, 0);
    input(&of_piece_coax, 0);
    put_piece(1, 1);
    input(&of_piece_coax, 6);
    flip(payload, 1);
    input(&of_piece_coax, 3);
    bytes++;
    input(&of_piece_coax, 2);
    checks_past(&of_piece_coax);
    streams_at_fault(&of_piece_coax, code->number, most);
}

static void coax_finishes(void)
{
    size_t most = code->payload_bits, in_use = code->places - most;
    for (int kind = 0; kind < 3; kind++) {
        put_state(code->number, most, kind, in_use);
        room = code->parity_bytes;
        input(&of_finish_coax, 0);
        room = MOST;
        input(&of_finish_coax, 0);
    }
    room = code->parity_bytes - 1;
    input(&of_finish_coax, 5);
    put_state(code->number, most - 1, 2, in_use);
    input(&of_finish_coax, 1);
    checks_past(&of_finish_coax);
    streams_at_fault(&of_finish_coax, code->number, most);
}

static void facts(const struct measured *of)
{
    char text[80];
    snprintf(text, sizeof text, ", %u inputs, as meant", of->inputs);
    fact(of->others == 0, of->name, text);
    snprintf(text, sizeof text, " takes %zu of %zu", of->taken, of->told);
    fact(of->taken <= of->told, of->name, text);
    snprintf(text, sizeof text, ", %zu not over twice", of->told);
    fact(of->told <= 2 * of->taken, of->name, text);
}

int main(void)
{
    /* The lists by turns: plain for one K, in another order
     * for the next, both for the largest. */
    for (bits = LEAST; bits <= PAYLOAD_MOST; bits += LEAST)
        for (size_t other = 0; other < 2; other++) {
            if (bits < PAYLOAD_MOST && bits / LEAST % 2 != other)
                continue;
            put_list(first, PAYLOAD_PLACES, other ? 6007 : 1);
            put_list(second, PARITY_PLACES, other ? 1001 : 1);
            encodings();
            full_words();
            line_words();
            pieces();
            finishes();
        }
    bits = 0;
    input(&of_encode, 1);
    input(&of_word, 1);
    input(&of_line, 1);
    for (code = coax_codes; code < coax_codes + sizeof coax_codes / sizeof *coax_codes; code++) {
        coax_encodings();
        coax_words();
        coax_pieces();
        coax_finishes();
    }
    facts(&of_encode);
    facts(&of_word);
    facts(&of_line);
    facts(&of_piece);
    facts(&of_finish);
    facts(&of_encode_coax);
    facts(&of_check_coax);
    facts(&of_piece_coax);
    facts(&of_finish_coax);
    printf("%u right, %u wrong\n", right, wrong);
    return wrong > 0;
}
