/* Threads that make all calls at once, those of the coax codes
 * too, each with inputs and lists of its own and with bytes
 * and lists that all of them read. Each has streams of its own.
 * Each must get what the same calls gave when nobody else made
 * any.
 *
 * What the calls give alone is taken as it is: host.c and the
 * yardstick compare that with the papers.
 *
 * Prints one fact a line, of at most 40 characters, and ends
 * with `N right, M wrong`. Exit status 1 if any is wrong.
 */
#define _XOPEN_SOURCE 700
#include "birdovesta.h"

#include <pthread.h>
#include <stdio.h>
#include <string.h>

enum {
    THREADS = 8,
    ROUNDS = 500,
    BLOCK = 257, /* a data block */
    SENT = 2560,
    FIRST = 14592, /* the places of each list */
    SECOND = 3072,
    COMMON = 407, /* the common delimiter */
    CODES = 2, /* the coax codes */
    MOST = 2304 /* the most bytes lent */
};

static const struct coax {
    size_t payload_bits, word_bytes;
    uint64_t (*encode)(size_t, const uint8_t *, size_t, uint8_t *, size_t);
    uint64_t (*check)(size_t, const uint8_t *, size_t);
    uint64_t (*piece)(uint8_t *, size_t, size_t, const uint8_t *, size_t);
    uint64_t (*finish)(uint8_t *, size_t, uint8_t *, size_t);
} codes[CODES] = {
    { 14400, BIRDOVESTA_WORD_16200_BYTES, birdovesta_encode_16200, birdovesta_check_16200,
        birdovesta_stream_piece_16200, birdovesta_stream_finish_16200 },
    { 5040, BIRDOVESTA_WORD_5940_BYTES, birdovesta_encode_5940, birdovesta_check_5940,
        birdovesta_stream_piece_5940, birdovesta_stream_finish_5940 },
};

/* What a thread reads. Those of index THREADS are read by all. */
struct input {
    size_t bits, delimiter;
    uint8_t payload[MOST], word[MOST], line[MOST], spoilt[MOST];
    uint8_t first[BIRDOVESTA_FIRST_BYTES], second[BIRDOVESTA_SECOND_BYTES];
    struct {
        uint8_t payload[MOST], word[MOST], spoilt[MOST];
    } coax[CODES];
};

/* A stream of a thread: what it is told, the state that holds
 * each payload, the one that is handed back, and what is
 * written at the end of each. */
struct stream {
    uint64_t piece[4], finish[3];
    uint8_t state[BIRDOVESTA_STREAM_BYTES];
    uint8_t own[BIRDOVESTA_STREAM_BYTES], common[BIRDOVESTA_STREAM_BYTES];
    uint8_t own_tail[MOST], common_tail[MOST];
};

/* What it gets: the answers, and the bytes written. */
struct output {
    uint64_t encode[4], word[3], line[4];
    uint8_t own[MOST], common[MOST], mixed[MOST];
    struct stream stream;
    struct coax_output {
        uint64_t encode[3], check[3];
        uint8_t own[MOST], common[MOST];
        struct stream stream;
    } coax[CODES];
};

static struct input inputs[THREADS + 1];
static struct output alone[THREADS];

/* How often a thread's answers were others than alone. */
static struct differences {
    unsigned encode, word, line, stream, encode_coax, check_coax, stream_coax;
} differences[THREADS];

static pthread_barrier_t gate;
static unsigned right, wrong;

static void fact(const char *text, int holds)
{
    printf("%s: %s\n", holds ? "right" : "wrong", text);
    if (holds)
        right++;
    else
        wrong++;
}

/* All calls, once each. */

/* By the lists of one input, the payload or word of another. */

static uint64_t encode(const struct input *in, const struct input *lists, size_t delimiter, uint8_t *line)
{
    return birdovesta_encode(in->bits, in->payload, (in->bits + 7) / 8, delimiter, lists->first, sizeof lists->first,
        lists->second, sizeof lists->second, line, MOST);
}

static uint64_t check_word(const struct input *in, const struct input *lists)
{
    return birdovesta_check_word(in->bits, in->word, BIRDOVESTA_WORD_BYTES, lists->first, sizeof lists->first,
        lists->second, sizeof lists->second);
}

static uint64_t check_line(
    const struct input *in, const struct input *lists, const uint8_t *line, size_t delimiter, size_t second_bytes)
{
    return birdovesta_check_line(in->bits, line, BIRDOVESTA_LINE_BYTES(in->bits), delimiter, lists->first,
        sizeof lists->first, lists->second, second_bytes);
}

static uint64_t encode_coax(const struct input *in, size_t n, uint8_t *word, size_t room)
{
    size_t bits = codes[n].payload_bits;
    return codes[n].encode(bits, in->coax[n].payload, bits / 8, word, room);
}

static uint64_t check_coax(size_t n, const uint8_t *word)
{
    return codes[n].check(codes[n].payload_bits, word, codes[n].word_bytes);
}

static uint64_t piece(uint8_t *state, const struct input *in, size_t from, size_t bits)
{
    return birdovesta_stream_piece(state, BIRDOVESTA_STREAM_BYTES, bits, in->payload + from / 8, (bits + 7) / 8,
        in->first, sizeof in->first, in->second, sizeof in->second);
}

static uint64_t finish(uint8_t *state, const struct input *in, size_t delimiter, uint8_t *tail, size_t room)
{
    return birdovesta_stream_finish(state, BIRDOVESTA_STREAM_BYTES, delimiter, in->first, sizeof in->first,
        in->second, sizeof in->second, tail, room);
}

static uint64_t piece_coax(uint8_t *state, const struct input *in, size_t n, size_t from, size_t bits)
{
    return codes[n].piece(state, BIRDOVESTA_STREAM_BYTES, bits, in->coax[n].payload + from / 8, (bits + 7) / 8);
}

static uint64_t finish_coax(uint8_t *state, size_t n, uint8_t *parity, size_t room)
{
    return codes[n].finish(state, BIRDOVESTA_STREAM_BYTES, parity, room);
}

/* A payload of its own in two pieces, with a piece of another
 * code and a finish without room in between; then the common
 * one in the stream that is handed back. */
static void stream_calls(const struct input *own, const struct input *common, struct stream *out)
{
    size_t part = own->bits / 16 * 8;
    out->state[0] = 1;
    out->piece[0] = piece(out->state, own, 0, part);
    out->piece[1] = piece_coax(out->state, own, 0, 0, 8);
    out->piece[2] = piece(out->state, own, part, own->bits - part);
    memcpy(out->own, out->state, sizeof out->own);
    out->finish[0] = finish(out->state, own, own->delimiter, out->own_tail, 0);
    out->finish[1] = finish(out->state, own, own->delimiter, out->own_tail, MOST);
    out->piece[3] = piece(out->state, common, 0, common->bits);
    memcpy(out->common, out->state, sizeof out->common);
    out->finish[2] = finish(out->state, common, own->delimiter, out->common_tail, MOST);
}

/* The same of a coax code. */
static void coax_stream_calls(const struct input *own, const struct input *common, size_t n, struct stream *out)
{
    size_t bits = codes[n].payload_bits, part = bits / 24 * 8;
    out->state[0] = (uint8_t)(2 + n);
    out->piece[0] = piece_coax(out->state, own, n, 0, part);
    out->piece[1] = piece_coax(out->state, own, 1 - n, 0, 8);
    out->piece[2] = piece_coax(out->state, own, n, part, bits - part);
    memcpy(out->own, out->state, sizeof out->own);
    out->finish[0] = finish_coax(out->state, 1 - n, out->own_tail, MOST);
    out->finish[1] = finish_coax(out->state, n, out->own_tail, MOST);
    out->piece[3] = piece_coax(out->state, common, n, 0, bits);
    memcpy(out->common, out->state, sizeof out->common);
    out->finish[2] = finish_coax(out->state, n, out->common_tail, MOST);
}

static void coax_calls(const struct input *own, const struct input *common, size_t n, struct coax_output *out)
{
    out->encode[0] = encode_coax(own, n, out->own, MOST);
    out->check[0] = check_coax(n, own->coax[n].word);
    out->encode[1] = encode_coax(common, n, out->common, MOST);
    out->check[1] = check_coax(n, own->coax[n].spoilt);
    out->encode[2] = encode_coax(own, n, out->own, 0);
    out->check[2] = check_coax(n, common->coax[n].spoilt);
    coax_stream_calls(own, common, n, &out->stream);
}

static void round_of_calls(size_t thread, struct output *out)
{
    const struct input *own = &inputs[thread], *common = &inputs[THREADS];
    memset(out, 0, sizeof *out);
    out->encode[0] = encode(own, own, own->delimiter, out->own);
    out->line[0] = check_line(own, own, own->line, own->delimiter, sizeof own->second);
    out->word[0] = check_word(own, own);
    out->encode[1] = encode(common, common, own->delimiter, out->common);
    out->line[1] = check_line(own, own, own->spoilt, own->delimiter, sizeof own->second);
    out->word[1] = check_word(common, common);
    out->encode[2] = encode(own, own, 1024, out->own);
    out->line[2] = check_line(common, common, common->line, own->delimiter, sizeof common->second);
    out->encode[3] = encode(common, own, COMMON, out->mixed);
    out->word[2] = check_word(own, common);
    out->line[3] = check_line(own, own, own->line, own->delimiter, sizeof own->second - 2);
    stream_calls(own, common, &out->stream);
    /* The codes by turns, so that threads are in both. */
    for (size_t n = 0; n < CODES; n++) {
        size_t turn = (thread + n) % CODES;
        coax_calls(own, common, turn, &out->coax[turn]);
    }
}

/* A thread */

static void compare(struct differences *count, const struct output *got, const struct output *meant)
{
    count->encode += memcmp(got->encode, meant->encode, sizeof got->encode) != 0
        || memcmp(got->own, meant->own, sizeof got->own) != 0
        || memcmp(got->common, meant->common, sizeof got->common) != 0
        || memcmp(got->mixed, meant->mixed, sizeof got->mixed) != 0;
    count->word += memcmp(got->word, meant->word, sizeof got->word) != 0;
    count->line += memcmp(got->line, meant->line, sizeof got->line) != 0;
    count->stream += memcmp(&got->stream, &meant->stream, sizeof got->stream) != 0;
    for (size_t n = 0; n < CODES; n++) {
        const struct coax_output *one = &got->coax[n], *other = &meant->coax[n];
        count->encode_coax += memcmp(one->encode, other->encode, sizeof one->encode) != 0
            || memcmp(one->own, other->own, sizeof one->own) != 0
            || memcmp(one->common, other->common, sizeof one->common) != 0;
        count->check_coax += memcmp(one->check, other->check, sizeof one->check) != 0;
        count->stream_coax += memcmp(&one->stream, &other->stream, sizeof one->stream) != 0;
    }
}

static void *rounds(void *number)
{
    size_t thread = *(size_t *)number;
    struct output got;
    for (unsigned n = 0; n < ROUNDS; n++) {
        pthread_barrier_wait(&gate);
        round_of_calls(thread, &got);
        compare(&differences[thread], &got, &alone[thread]);
    }
    return NULL;
}

/* Inputs */

static void flip(uint8_t *bytes, size_t place)
{
    bytes[place / 8] ^= (uint8_t)(1u << place % 8);
}

/* Bytes that look random, the same at every run. */
static void fill(uint8_t *bytes, size_t count)
{
    static uint64_t state = 142;
    for (size_t n = 0; n < count; n++) {
        state = state * 6364136223846793005u + 1442695040888963407u;
        bytes[n] = (uint8_t)(state >> 56);
    }
}

static void put_entry(uint8_t *list, size_t t, size_t place)
{
    list[2 * t] = (uint8_t)(place % 256);
    list[2 * t + 1] = (uint8_t)(place / 256);
}

/* Each place once, moved on by so many. */
static void put_list(uint8_t *list, size_t places, size_t by)
{
    for (size_t t = 0; t < places; t++)
        put_entry(list, t, (t + by) % places);
}

/* Each has another K, payload, delimiter, other lists and
 * spoilt places. A thread's delimiter differs from the common
 * one in one bit. The place of a word that is 1 takes payload
 * by its own lists, and by those of any other. */
static void make(size_t n)
{
    struct input *in = &inputs[n];
    in->bits = BLOCK * (7 * n + 1 - n / THREADS);
    in->delimiter = n < THREADS ? COMMON ^ 1u << n : COMMON;
    put_list(in->first, FIRST, 11 * n);
    put_list(in->second, SECOND, 331 * n);
    fill(in->payload, in->bits / 8);
    flip(in->word, 19 * n);
    encode(in, in, in->delimiter, in->line);
    memcpy(in->spoilt, in->line, MOST);
    flip(in->spoilt, in->bits + (n + 1) * (SENT / THREADS / 2));
    for (size_t c = 0; c < CODES; c++) {
        fill(in->coax[c].payload, codes[c].payload_bits / 8);
        encode_coax(in, c, in->coax[c].word, MOST);
        memcpy(in->coax[c].spoilt, in->coax[c].word, MOST);
        flip(in->coax[c].spoilt, 29 * n);
    }
}

static int coax_differs(const struct output *one, const struct output *other)
{
    int differ = 1;
    for (size_t c = 0; c < CODES; c++)
        differ &= memcmp(one->coax[c].own, other->coax[c].own, MOST) != 0
            && one->coax[c].check[1] != other->coax[c].check[1]
            && memcmp(one->coax[c].stream.own, other->coax[c].stream.own, BIRDOVESTA_STREAM_BYTES) != 0
            && memcmp(one->coax[c].stream.own_tail, other->coax[c].stream.own_tail, MOST) != 0;
    return differ;
}

/* What a stream is told when nobody else makes a call: its own
 * pieces and finishes are taken, the others are refused. */
static int stream_right(const struct stream *out, uint64_t number, uint64_t no_room)
{
    int right = out->piece[0] == 0 && out->piece[1] == 12 && out->piece[2] == 0 && out->piece[3] == 0
        && out->finish[0] == no_room && out->finish[1] == 0 && out->finish[2] == 0 && out->state[0] == number;
    for (size_t n = 1; n < sizeof out->state; n++)
        right &= out->state[n] == 0;
    return right;
}

static int streams_right(void)
{
    int right = 1;
    for (size_t n = 0; n < THREADS; n++) {
        right &= stream_right(&alone[n].stream, 1, 5);
        for (size_t c = 0; c < CODES; c++)
            right &= stream_right(&alone[n].coax[c].stream, 2 + c, 12);
    }
    return right;
}

/* Whether a thread's answers would be noticed in another's. */
static int all_differ(void)
{
    int differ = 1;
    for (size_t n = 0; n < THREADS; n++)
        for (size_t other = 0; other < n; other++)
            differ &= memcmp(alone[n].own, alone[other].own, MOST) != 0
                && memcmp(alone[n].common, alone[other].common, MOST) != 0
                && memcmp(alone[n].mixed, alone[other].mixed, MOST) != 0
                && alone[n].word[0] != alone[other].word[0]
                && alone[n].line[1] != alone[other].line[1]
                && alone[n].line[2] != alone[other].line[2]
                && memcmp(alone[n].stream.own, alone[other].stream.own, BIRDOVESTA_STREAM_BYTES) != 0
                && memcmp(alone[n].stream.own_tail, alone[other].stream.own_tail, MOST) != 0
                && memcmp(alone[n].stream.common_tail, alone[other].stream.common_tail, MOST) != 0
                && coax_differs(&alone[n], &alone[other]);
    return differ;
}

int main(void)
{
    static struct input before[THREADS + 1];
    static size_t numbers[THREADS];
    pthread_t threads[THREADS];
    for (size_t n = 0; n <= THREADS; n++)
        make(n);
    memcpy(before, inputs, sizeof inputs);
    for (size_t n = 0; n < THREADS; n++)
        round_of_calls(n, &alone[n]);
    fact("alone, no two threads alike", all_differ());
    fact("alone, streams held and finished", streams_right());

    pthread_barrier_init(&gate, NULL, THREADS);
    for (size_t n = 0; n < THREADS; n++) {
        numbers[n] = n;
        if (pthread_create(&threads[n], NULL, rounds, &numbers[n]) != 0) {
            printf("wrong: no more threads to be had\n");
            return 1;
        }
    }
    struct differences sum = { 0, 0, 0, 0, 0, 0, 0 };
    for (size_t n = 0; n < THREADS; n++) {
        pthread_join(threads[n], NULL);
        sum.encode += differences[n].encode;
        sum.word += differences[n].word;
        sum.line += differences[n].line;
        sum.stream += differences[n].stream;
        sum.encode_coax += differences[n].encode_coax;
        sum.check_coax += differences[n].check_coax;
        sum.stream_coax += differences[n].stream_coax;
    }
    fact("encode, 8 at once as alone", sum.encode == 0);
    fact("check_word, 8 at once as alone", sum.word == 0);
    fact("check_line, 8 at once as alone", sum.line == 0);
    fact("stream, 8 at once as alone", sum.stream == 0);
    fact("encode_coax, 8 at once as alone", sum.encode_coax == 0);
    fact("check_coax, 8 at once as alone", sum.check_coax == 0);
    fact("stream_coax, 8 at once as alone", sum.stream_coax == 0);
    fact("no byte that is read has moved", memcmp(before, inputs, sizeof inputs) == 0);
    printf("%u right, %u wrong\n", right, wrong);
    return wrong > 0;
}
