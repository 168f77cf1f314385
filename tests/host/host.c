/* The bench host in C, against include/birdovesta.h and the
 * archive: the lessons of paper 01's sheet that go through
 * its calls, with the pair of lists that changes nothing; what
 * W2 says of other lists, and of lists at fault; lessons for
 * the coax codes of W8; streams of all three codes, with what
 * W9 says of them; and that nothing else is touched.
 *
 * Every expected value is from paper 01, W2, W9 or, for the
 * coax codes, from W8 and source document 001. Each fact takes
 * a call's answer, and every byte of the five buffers and of
 * both lists later, guard bytes on both sides included.
 *
 * Prints one fact a line, of at most 40 characters, and ends
 * with `N right, M wrong`. Exit status 1 if any is wrong.
 */
#include "birdovesta.h"

#include <stdio.h>
#include <string.h>

enum {
    GUARD = 64,
    MOST = 2304, /* the most bytes lent */
    LEAST = 257, /* one data block: the least payload */
    LEAST_BYTES = 33,
    LEAST_LINE = 354,
    PAYLOAD_MOST = 14392,
    PAYLOAD_PLACES = 14592,
    PARITY_PLACES = 3072,
    SENT = 2560,
    PUNCTURED = PARITY_PLACES - SENT,
    STATE = BIRDOVESTA_STREAM_BYTES,
    TAIL = BIRDOVESTA_TAIL_BYTES
};

/* A buffer is lent from byte GUARD on. */
struct buffer {
    uint8_t all[GUARD + MOST + GUARD];
};

/* What is lent, and what it must hold after the call. */
static struct buffer payload, word, line, piece, stream;
static struct buffer payload_later, word_later, line_later, piece_later, stream_later;

/* So is a list. What it must hold later is what was put
 * there: no call writes to a list. */
struct list {
    size_t places, bytes;
    uint8_t all[GUARD + BIRDOVESTA_FIRST_BYTES + GUARD];
    uint8_t later[GUARD + BIRDOVESTA_FIRST_BYTES + GUARD];
};

static struct list first = { .places = PAYLOAD_PLACES }, second = { .places = PARITY_PLACES };

static unsigned right, wrong;

static uint8_t *lent(struct buffer *buffer)
{
    return buffer->all + GUARD;
}

/* Any bytes, no two buffers alike. */
static void fill(struct buffer *buffer, unsigned start)
{
    for (size_t n = 0; n < sizeof buffer->all; n++)
        buffer->all[n] = (uint8_t)(start + 37 * n + n / 256);
}

static void zeros(struct buffer *buffer, size_t bytes)
{
    memset(lent(buffer), 0, bytes);
}

static void flip(struct buffer *buffer, size_t place)
{
    lent(buffer)[place / 8] ^= (uint8_t)(1u << place % 8);
}

/* New contents. */
static void begin(void)
{
    fill(&payload, 11);
    fill(&word, 83);
    fill(&line, 170);
    fill(&piece, 42);
    fill(&stream, 129);
}

/* The line word of K 257, all unset, delimiter 1,023. */
static void put_line_of_zero(struct buffer *buffer)
{
    zeros(buffer, 352);
    lent(buffer)[352] = 0xFE;
    lent(buffer)[353] = 0x07;
}

/* What is expected later is what is there now. */
static void nothing_changes(void)
{
    payload_later = payload;
    word_later = word;
    line_later = line;
    piece_later = piece;
    stream_later = stream;
}

static int list_right(const struct list *list)
{
    return memcmp(list->all, list->later, sizeof list->all) == 0;
}

static int bytes_right(void)
{
    return list_right(&first) && list_right(&second)
        && memcmp(&payload, &payload_later, sizeof payload) == 0
        && memcmp(&word, &word_later, sizeof word) == 0
        && memcmp(&line, &line_later, sizeof line) == 0
        && memcmp(&piece, &piece_later, sizeof piece) == 0
        && memcmp(&stream, &stream_later, sizeof stream) == 0;
}

static void fact(const char *text, int holds)
{
    printf("%s: %s\n", holds ? "right" : "wrong", text);
    if (holds)
        right++;
    else
        wrong++;
}

/* One fact: the answer, and all bytes. */
static void told(const char *text, uint64_t answer, uint64_t expected)
{
    int same = bytes_right();
    fact(text, answer == expected && same);
    if (answer != expected)
        printf("  answer %llu,\n  not %llu\n",
            (unsigned long long)answer, (unsigned long long)expected);
    if (!same)
        printf("  some byte is not as it must be\n");
}

/* The number of a verdict. */
#define VERDICT(cause, count, place) (((uint64_t)(cause) << 32) + ((uint64_t)(count) << 16) + (place))

static uint64_t verdict(uint64_t cause, uint64_t count, uint64_t place)
{
    return VERDICT(cause, count, place);
}

/* Lists */

static void put_entry(struct list *list, size_t t, size_t place)
{
    list->all[GUARD + 2 * t] = (uint8_t)(place % 256);
    list->all[GUARD + 2 * t + 1] = (uint8_t)(place / 256);
}

static size_t entry(const struct list *list, size_t t)
{
    return list->all[GUARD + 2 * t] + 256u * list->all[GUARD + 2 * t + 1];
}

/* What is there now is what must be there later. */
static void list_is_put(struct list *list)
{
    memcpy(list->later, list->all, sizeof list->all);
}

/* Entry t of a list of so many places. */
typedef size_t order(size_t t, size_t places);

static size_t plain(size_t t, size_t places)
{
    (void)places;
    return t;
}

static size_t reversed(size_t t, size_t places)
{
    return places - 1 - t;
}

/* Parity bits 512 to 3,071 come first. */
static size_t turned(size_t t, size_t places)
{
    return (t + PUNCTURED) % places;
}

/* All that can be payload is moved on by one place, so that
 * what is shortened is the same as in the plain list. */
static size_t moved_on(size_t t, size_t places)
{
    (void)places;
    return t < PAYLOAD_MOST ? (t + 1) % PAYLOAD_MOST : t;
}

static void put_list(struct list *list, order *of)
{
    for (size_t n = 0; n < sizeof list->all; n++)
        list->all[n] = (uint8_t)(59 + 41 * n);
    for (size_t t = 0; t < list->places; t++)
        put_entry(list, t, of(t, list->places));
    list->bytes = 2 * list->places;
    list_is_put(list);
}

/* In an order that looks random, the same at every run. */
static void shuffle(struct list *list)
{
    uint64_t state = 142;
    put_list(list, plain);
    for (size_t t = list->places - 1; t > 0; t--) {
        state = state * 6364136223846793005u + 1442695040888963407u;
        size_t other = (size_t)(state >> 33) % (t + 1), place = entry(list, t);
        put_entry(list, t, entry(list, other));
        put_entry(list, other, place);
    }
    list_is_put(list);
}

static void put_lists(order *of)
{
    put_list(&first, of);
    put_list(&second, of);
}

/* The calls of the fibre code, on the three buffers and with
 * both lists. */

static uint64_t encode(size_t bits, size_t bytes, size_t delimiter, size_t room)
{
    return birdovesta_encode(bits, lent(&payload), bytes, delimiter, first.all + GUARD, first.bytes,
        second.all + GUARD, second.bytes, lent(&line), room);
}

static uint64_t check_word(size_t bits, size_t bytes)
{
    return birdovesta_check_word(bits, lent(&word), bytes, first.all + GUARD, first.bytes,
        second.all + GUARD, second.bytes);
}

static uint64_t check_line(size_t bits, size_t bytes, size_t delimiter)
{
    return birdovesta_check_line(bits, lent(&line), bytes, delimiter, first.all + GUARD, first.bytes,
        second.all + GUARD, second.bytes);
}

/* The calls of a stream, of each code: the stream's bytes, a
 * piece of so many bits and bytes, and what a finish writes,
 * to the line. */

static uint64_t piece_fibre(size_t state, size_t bits, size_t bytes)
{
    return birdovesta_stream_piece(lent(&stream), state, bits, lent(&piece), bytes, first.all + GUARD, first.bytes,
        second.all + GUARD, second.bytes);
}

static uint64_t finish_fibre(size_t state, size_t delimiter, size_t room)
{
    return birdovesta_stream_finish(lent(&stream), state, delimiter, first.all + GUARD, first.bytes,
        second.all + GUARD, second.bytes, lent(&line), room);
}

static uint64_t piece_16200(size_t state, size_t bits, size_t bytes)
{
    return birdovesta_stream_piece_16200(lent(&stream), state, bits, lent(&piece), bytes);
}

static uint64_t finish_16200(size_t state, size_t delimiter, size_t room)
{
    (void)delimiter;
    return birdovesta_stream_finish_16200(lent(&stream), state, lent(&line), room);
}

static uint64_t piece_5940(size_t state, size_t bits, size_t bytes)
{
    return birdovesta_stream_piece_5940(lent(&stream), state, bits, lent(&piece), bytes);
}

static uint64_t finish_5940(size_t state, size_t delimiter, size_t room)
{
    (void)delimiter;
    return birdovesta_stream_finish_5940(lent(&stream), state, lent(&line), room);
}

static void put_number(struct buffer *buffer, size_t at, uint64_t number)
{
    for (size_t n = 0; n < 8; n++)
        lent(buffer)[at + n] = (uint8_t)(number >> 8 * n);
}

/* A stream of so many bits, with checks that are all 0. With
 * 0 bits it is the fresh one. */
static void put_stream(struct buffer *buffer, uint64_t number, uint64_t held)
{
    zeros(buffer, STATE);
    put_number(buffer, 0, number);
    put_number(buffer, 8, held);
}

/* Inverts a running check of a stream. */
static void flip_check(struct buffer *buffer, size_t check)
{
    flip(buffer, 8 * 16 + check);
}

/* Full words */

/* A word of zeros, but for one place. */
static void one_place(size_t place)
{
    begin();
    zeros(&word, BIRDOVESTA_WORD_BYTES);
    flip(&word, place);
    nothing_changes();
}

static void full_word_lessons(void)
{
    begin();
    zeros(&word, BIRDOVESTA_WORD_BYTES);
    nothing_changes();
    told("all 0, K 257: accepted", check_word(LEAST, 2208), 0);

    static const struct {
        size_t place, bits;
        uint64_t cause, count, at;
        const char *text;
    } lessons[] = {
        { 0, LEAST, BIRDOVESTA_CHECK, 6, 176, "bit 0: check 176 fails 6" },
        { 257, LEAST, BIRDOVESTA_SHORTENED, 0, 257, "bit 257, K 257: shortened 257" },
        { 14392, 14392, BIRDOVESTA_SHORTENED, 0, 14392, "bit 14392: shortened 14392" },
        { 14592, LEAST, BIRDOVESTA_CHECK, 3, 551, "bit 14592: check 551 fails 3" },
        { 255, LEAST, BIRDOVESTA_CHECK, 6, 175, "bit 255: check 175 fails 6" },
        { 256, LEAST, BIRDOVESTA_CHECK, 6, 256, "bit 256: check 256 fails 6" },
        { 14391, 14392, BIRDOVESTA_CHECK, 3, 311, "bit 14391: check 311 fails 3" },
    };
    for (size_t n = 0; n < sizeof lessons / sizeof *lessons; n++) {
        one_place(lessons[n].place);
        told(lessons[n].text, check_word(lessons[n].bits, 2208),
            verdict(lessons[n].cause, lessons[n].count, lessons[n].at));
    }

    one_place(0);
    uint64_t answer = check_word(LEAST, 2208);
    fact("its parts: check, 6, 176",
        BIRDOVESTA_CAUSE(answer) == BIRDOVESTA_CHECK
            && BIRDOVESTA_COUNT(answer) == 6
            && BIRDOVESTA_PLACE(answer) == 176);

    /* The sheet's rows of places 0 and 255: no two are alike. */
    one_place(0);
    flip(&word, 255);
    nothing_changes();
    told("bits 0, 255: check 175 fails 12", check_word(LEAST, 2208), verdict(BIRDOVESTA_CHECK, 12, 175));

    int all = 1;
    for (size_t place = LEAST; place < PAYLOAD_PLACES; place++) {
        one_place(place);
        all &= check_word(LEAST, 2208) == verdict(BIRDOVESTA_SHORTENED, 0, place) && bytes_right();
    }
    fact("K 257: each shortened place named", all);

    one_place(14591);
    flip(&word, 14392);
    nothing_changes();
    told("of two the lower: shortened 14392", check_word(PAYLOAD_MOST, 2208), verdict(BIRDOVESTA_SHORTENED, 0, 14392));

    one_place(14392);
    flip(&word, 0);
    nothing_changes();
    told("shortened goes before check", check_word(PAYLOAD_MOST, 2208), verdict(BIRDOVESTA_SHORTENED, 0, 14392));

    one_place(0);
    told("word, K 0: refusal 1", check_word(0, 2208), 1);
    told("word, K 14393: refusal 1", check_word(14393, 2208), 1);
    told("word, K 0, 0 bytes: refusal 1", check_word(0, 0), 1);
    told("word, K 1: refusal 10", check_word(1, 2208), 10);
    told("word, K 1, 0 bytes: refusal 10", check_word(1, 0), 10);
    told("word of 0 bytes: refusal 2", check_word(LEAST, 0), 2);
    told("word of 2207 bytes: refusal 2", check_word(LEAST, 2207), 2);
    told("word of 2209 bytes: refusal 2", check_word(LEAST, 2209), 2);
}

/* The encoder */

static void encoder_lessons(void)
{
    begin();
    zeros(&payload, LEAST_BYTES);
    nothing_changes();
    put_line_of_zero(&line_later);
    told("K 257, all 0: 352 of 00, FE 07", encode(LEAST, LEAST_BYTES, 1023, LEAST_LINE), 0);

    begin();
    zeros(&payload, LEAST_BYTES);
    nothing_changes();
    put_line_of_zero(&line_later);
    told("the same with room to spare", encode(LEAST, LEAST_BYTES, 1023, MOST), 0);

    begin();
    zeros(&payload, 1799);
    nothing_changes();
    zeros(&line_later, 2119);
    lent(&line_later)[2119] = 0xFF;
    lent(&line_later)[2120] = 0x03;
    told("K 14392, zeros: 00, FF 03", encode(14392, 1799, 1023, 2121), 0);

    begin();
    nothing_changes();
    told("K 0: refusal 1", encode(0, 0, 0, MOST), 1);
    told("K 14393: refusal 1", encode(14393, 1800, 0, MOST), 1);
    told("K 1: refusal 10", encode(1, 1, 0, MOST), 10);
    told("K 256: refusal 10", encode(256, 32, 0, MOST), 10);
    told("K 258: refusal 10", encode(258, 33, 0, MOST), 10);
    told("K 1000: refusal 10", encode(1000, 125, 0, MOST), 10);
    told("K 14391: refusal 10", encode(14391, 1799, 0, MOST), 10);
    told("K 1, 0 bytes, 1024: refusal 10", encode(1, 0, 1024, 0), 10);
    told("K 14392, room 2120: refusal 5", encode(14392, 1799, 0, 2120), 5);
    told("K 14392, room 0: refusal 5", encode(14392, 1799, 0, 0), 5);
    told("K 14392, 1798 bytes: refusal 2", encode(14392, 1798, 0, 2121), 2);
    told("K 14392, 1800 bytes: refusal 2", encode(14392, 1800, 0, 2121), 2);
    told("delimiter 1024: refusal 4", encode(14392, 1799, 1024, 2121), 4);
    told("1024, room 2120: refusal 4", encode(14392, 1799, 1024, 2120), 4);

    begin();
    zeros(&payload, LEAST_BYTES);
    lent(&payload)[LEAST_BYTES - 1] = 0x02;
    nothing_changes();
    told("K 257, last byte 02: refusal 3", encode(LEAST, LEAST_BYTES, 1024, LEAST_LINE), 3);
    told("the same, 34 bytes: refusal 2", encode(LEAST, 34, 1024, LEAST_LINE), 2);
    told("the same, K 0: refusal 1", encode(0, 34, 1024, 0), 1);
}

/* Line words */

static void line_of_zero(void)
{
    begin();
    put_line_of_zero(&line);
}

static void line_lessons(void)
{
    line_of_zero();
    nothing_changes();
    told("352 of 00, FE 07: accepted", check_line(LEAST, LEAST_LINE, 1023), 0);
    told("against 1022: delimiter 0", check_line(LEAST, LEAST_LINE, 1022), verdict(BIRDOVESTA_DELIMITER, 0, 0));
    told("against 511: delimiter 9", check_line(LEAST, LEAST_LINE, 511), verdict(BIRDOVESTA_DELIMITER, 0, 9));

    int all = 1;
    for (size_t place = 0; place < SENT; place++) {
        line_of_zero();
        flip(&line, LEAST + place);
        nothing_changes();
        all &= check_line(LEAST, LEAST_LINE, 1023) == verdict(BIRDOVESTA_PARITY, 0, place) && bytes_right();
    }
    fact("each parity place named", all);

    all = 1;
    for (size_t at = 0; at < 10; at++) {
        line_of_zero();
        flip(&line, LEAST + SENT + at);
        nothing_changes();
        all &= check_line(LEAST, LEAST_LINE, 1023) == verdict(BIRDOVESTA_DELIMITER, 0, at) && bytes_right();
    }
    fact("each delimiter bit named", all);

    line_of_zero();
    flip(&line, LEAST + 2559);
    nothing_changes();
    told("parity goes before delimiter", check_line(LEAST, LEAST_LINE, 0), verdict(BIRDOVESTA_PARITY, 0, 2559));

    line_of_zero();
    nothing_changes();
    told("line, K 0: refusal 1", check_line(0, LEAST_LINE, 1023), 1);
    told("line, K 14393: refusal 1", check_line(14393, 2121, 1023), 1);
    told("line, K 0, 353 bytes: refusal 1", check_line(0, 353, 1023), 1);
    told("line, K 258: refusal 10", check_line(258, 354, 1023), 10);
    told("line, K 1, 0 bytes: refusal 10", check_line(1, 0, 1024), 10);
    told("line of 0 bytes: refusal 2", check_line(LEAST, 0, 1023), 2);
    told("line of 353 bytes: refusal 2", check_line(LEAST, 353, 1023), 2);
    told("line of 355 bytes: refusal 2", check_line(LEAST, 355, 1023), 2);
    told("line, delimiter 1024: refusal 4", check_line(LEAST, LEAST_LINE, 1024), 4);

    line_of_zero();
    flip(&line, LEAST + SENT + 10);
    nothing_changes();
    told("line, unused bit: refusal 3", check_line(LEAST, LEAST_LINE, 1023), 3);
    told("and delimiter 1024: refusal 3", check_line(LEAST, LEAST_LINE, 1024), 3);
    told("and 353 bytes: refusal 2", check_line(LEAST, 353, 1024), 2);
}

/* Any payload of K bits. */
static void begin_payload(size_t bits)
{
    begin();
    for (size_t place = bits; place % 8 > 0; place++)
        lent(&payload)[place / 8] &= (uint8_t)~(1u << place % 8);
}

static unsigned bit(struct buffer *buffer, size_t place)
{
    return lent(buffer)[place / 8] >> place % 8 & 1u;
}

/* From the encoder to the check, for the 16 largest K, so
 * for each K mod 8: the payload comes first, the delimiter
 * last, and the check accepts it. The parity of such payloads
 * is not in the paper, so it is taken as written. */
static void there_and_back(const char *name)
{
    int payloads = 1, delimiters = 1, accepted = 1, others = 1;
    for (size_t bits = PAYLOAD_MOST - 15 * LEAST; bits <= PAYLOAD_MOST; bits += LEAST) {
        size_t delimiter = bits * 77 % 1024, needed = BIRDOVESTA_LINE_BYTES(bits);
        begin_payload(bits);
        nothing_changes();
        accepted &= encode(bits, (bits + 7) / 8, delimiter, MOST) == 0;
        memcpy(lent(&line_later), lent(&line), needed);
        others &= bytes_right();
        for (size_t place = 0; place < 8 * needed; place++) {
            if (place < bits)
                payloads &= bit(&line, place) == bit(&payload, place);
            else if (place >= bits + SENT)
                delimiters &= bit(&line, place) == (delimiter >> (place - bits - SENT) & 1);
        }
        accepted &= check_line(bits, needed, delimiter) == 0;
        others &= bytes_right();
    }
    const struct {
        const char *text;
        int holds;
    } facts[] = {
        { "payload comes first", payloads },
        { "delimiter, then 0s", delimiters },
        { "accepted again", accepted },
        { "no other byte moved", others },
    };
    for (size_t n = 0; n < sizeof facts / sizeof *facts; n++) {
        char text[80];
        snprintf(text, sizeof text, "%s: %s", name, facts[n].text);
        fact(text, facts[n].holds);
    }
}

/* Other lists than the plain ones */

/* Shortened places are seen through the first list, and are
 * told by the inner place. The checks are of inner places. */
static void reversed_lessons(void)
{
    put_lists(reversed);
    begin();
    zeros(&word, BIRDOVESTA_WORD_BYTES);
    nothing_changes();
    told("reversed, all 0: accepted", check_word(LEAST, 2208), 0);

    static const struct {
        size_t place, bits;
        uint64_t cause, count, at;
        const char *text;
    } lessons[] = {
        { 0, PAYLOAD_MOST, BIRDOVESTA_SHORTENED, 0, 0, "reversed, bit 0: shortened 0" },
        { 199, PAYLOAD_MOST, BIRDOVESTA_SHORTENED, 0, 199, "reversed, bit 199: shortened 199" },
        { 255, PAYLOAD_MOST, BIRDOVESTA_CHECK, 6, 175, "reversed, bit 255: 175 fails 6" },
        { 256, PAYLOAD_MOST, BIRDOVESTA_CHECK, 6, 256, "reversed, bit 256: 256 fails 6" },
        { 256, LEAST, BIRDOVESTA_SHORTENED, 0, 256, "K 257, 256: shortened 256" },
        { 14334, LEAST, BIRDOVESTA_SHORTENED, 0, 14334, "K 257, 14334: shortened 14334" },
        { 14391, LEAST, BIRDOVESTA_CHECK, 3, 311, "K 257, 14391: 311 fails 3" },
        { 14592, LEAST, BIRDOVESTA_CHECK, 3, 551, "K 257, 14592: 551 fails 3" },
    };
    for (size_t n = 0; n < sizeof lessons / sizeof *lessons; n++) {
        one_place(lessons[n].place);
        told(lessons[n].text, check_word(lessons[n].bits, 2208),
            verdict(lessons[n].cause, lessons[n].count, lessons[n].at));
    }

    one_place(199);
    flip(&word, 0);
    flip(&word, 255);
    nothing_changes();
    told("the lowest inner place is told", check_word(PAYLOAD_MOST, 2208), verdict(BIRDOVESTA_SHORTENED, 0, 0));

    begin();
    zeros(&payload, LEAST_BYTES);
    nothing_changes();
    put_line_of_zero(&line_later);
    told("reversed, zeros: 00, FE 07", encode(LEAST, LEAST_BYTES, 1023, LEAST_LINE), 0);

    line_of_zero();
    nothing_changes();
    told("and accepted", check_line(LEAST, LEAST_LINE, 1023), 0);
    int all = 1;
    for (size_t place = 0; place < SENT; place += 13) {
        line_of_zero();
        flip(&line, LEAST + place);
        nothing_changes();
        all &= check_line(LEAST, LEAST_LINE, 1023) == verdict(BIRDOVESTA_PARITY, 0, place) && bytes_right();
    }
    fact("its outgoing parity places named", all);
}

/* The sent parity of any payload, its bits moved on or not. */
static void put_parity(uint8_t *parity, size_t moved)
{
    begin_payload(PAYLOAD_MOST);
    struct buffer before = payload;
    for (size_t place = 0; place < PAYLOAD_MOST; place++)
        if (bit(&before, (place + moved) % PAYLOAD_MOST) != bit(&payload, place))
            flip(&payload, place);
    encode(PAYLOAD_MOST, PAYLOAD_MOST / 8, 0, MOST);
    memcpy(parity, lent(&line) + PAYLOAD_MOST / 8, SENT / 8);
}

/* What each list does to the parity, told by the parity that
 * the plain pair gives. */
static void each_list_alone(void)
{
    uint8_t parity[SENT / 8], other[SENT / 8];
    put_lists(plain);
    put_parity(parity, 1);
    put_list(&first, moved_on);
    put_parity(other, 0);
    fact("first list: bits from its entries", memcmp(parity, other, SENT / 8) == 0);
    put_parity(other, 1);
    fact("and the list does move them", memcmp(parity, other, SENT / 8) != 0);

    put_lists(plain);
    put_parity(parity, 0);
    put_list(&second, turned);
    put_parity(other, 0);
    fact("second list: so is the parity", memcmp(parity + PUNCTURED / 8, other, (SENT - PUNCTURED) / 8) == 0);

    /* The plain list's places are the lowest of any. */
    put_lists(plain);
    begin_payload(PAYLOAD_MOST);
    nothing_changes();
    encode(PAYLOAD_MOST, PAYLOAD_MOST / 8, 0, MOST);
    line_later = line;
    fill(&line, 170);
    told("the second may lie in the first",
        birdovesta_encode(PAYLOAD_MOST, lent(&payload), PAYLOAD_MOST / 8, 0, first.all + GUARD, first.bytes,
            first.all + GUARD, second.bytes, lent(&line), MOST),
        0);
}

/* Any order. All 3,072 parity bits are had from two encodings,
 * by a second list that sends the first ones and by one that
 * sends the last ones. With the payload put in inner order
 * here, they are a full word that is accepted. So the parity
 * is the right one, and by the second list it is the one that
 * the encoder sends. */
static void any_order(void)
{
    static struct buffer inner;
    int accepted = 1, sent = 1, shortened = 1;
    shuffle(&first);
    for (size_t bits = LEAST; bits <= PAYLOAD_MOST; bits += 5 * LEAST) {
        size_t bytes = (bits + 7) / 8;
        begin_payload(bits);
        zeros(&inner, BIRDOVESTA_WORD_BYTES);
        for (size_t t = 0; t < PAYLOAD_PLACES; t++)
            if (entry(&first, t) < bits && bit(&payload, entry(&first, t)))
                flip(&inner, t);
        put_list(&second, plain);
        accepted &= encode(bits, bytes, 0, MOST) == 0;
        for (size_t n = 0; n < PUNCTURED; n++)
            if (bit(&line, bits + n))
                flip(&inner, PAYLOAD_PLACES + n);
        put_list(&second, turned);
        accepted &= encode(bits, bytes, 0, MOST) == 0;
        for (size_t n = 0; n < SENT; n++)
            if (bit(&line, bits + n))
                flip(&inner, PAYLOAD_PLACES + PUNCTURED + n);
        shuffle(&second);
        accepted &= encode(bits, bytes, 0, MOST) == 0;
        for (size_t n = 0; n < SENT; n++)
            sent &= bit(&line, bits + n) == bit(&inner, PAYLOAD_PLACES + entry(&second, n));
        word = inner;
        nothing_changes();
        accepted &= check_word(bits, 2208) == 0 && bytes_right();
        /* Another count than the word's: the lowest 1 that is not payload. */
        size_t lowest = 0;
        while (!bit(&word, lowest) || entry(&first, lowest) < LEAST)
            lowest++;
        uint64_t expected = bits > LEAST ? verdict(BIRDOVESTA_SHORTENED, 0, lowest) : 0;
        shortened &= check_word(LEAST, 2208) == expected;
    }
    fact("any order: full words accepted", accepted);
    fact("any order: their parity sent", sent);
    fact("any order: as K 257 shortened", shortened);
}

static void other_lists(void)
{
    reversed_lessons();
    each_list_alone();
    any_order();
    shuffle(&first);
    shuffle(&second);
    there_and_back("any order");
    put_lists(plain);
}

/* Lists at fault */

static void be_empty(struct list *list)
{
    list->bytes = 0;
}

static void byte_short(struct list *list)
{
    list->bytes--;
}

/* The first places alone, each once. */
static void entry_short(struct list *list)
{
    list->bytes -= 2;
}

static void byte_long(struct list *list)
{
    list->bytes++;
}

/* One place more, each once. */
static void entry_long(struct list *list)
{
    put_entry(list, list->places, list->places);
    list->bytes += 2;
}

static void entry_twice(struct list *list)
{
    put_entry(list, 1000, 1001);
}

static void no_place_0(struct list *list)
{
    put_entry(list, 0, 2000);
}

static void no_last_place(struct list *list)
{
    put_entry(list, list->places - 1, list->places - 2);
}

static void starts_with_length(struct list *list)
{
    put_entry(list, 0, list->places);
}

static void ends_with_length(struct list *list)
{
    put_entry(list, list->places - 1, list->places);
}

static void entry_of_65535(struct list *list)
{
    put_entry(list, 256, 65535);
}

static void high_byte_first(struct list *list)
{
    for (size_t t = 0; t < list->places; t++)
        put_entry(list, t, t % 256 * 256 + t / 256);
}

/* The answers of a call that is fine but for the lists, and
 * of the same call with each other fault, the last time with
 * several. Whether no byte has moved is what comes back. */

static int all_encodes(uint64_t *answers)
{
    zeros(&payload, LEAST_BYTES + 1);
    nothing_changes();
    answers[0] = encode(LEAST, LEAST_BYTES, 1023, LEAST_LINE);
    answers[1] = encode(0, LEAST_BYTES, 1023, LEAST_LINE);
    answers[2] = encode(LEAST + 1, LEAST_BYTES, 1023, LEAST_LINE);
    answers[3] = encode(LEAST, LEAST_BYTES + 1, 1023, LEAST_LINE);
    answers[4] = encode(LEAST, LEAST_BYTES, 1024, LEAST_LINE);
    answers[5] = encode(LEAST, LEAST_BYTES, 1023, LEAST_LINE - 1);
    int kept = bytes_right();
    flip(&payload, LEAST);
    nothing_changes();
    answers[6] = encode(LEAST, LEAST_BYTES, 1023, LEAST_LINE);
    answers[7] = encode(PAYLOAD_MOST + 1, LEAST_BYTES, 1024, 0);
    return kept && bytes_right();
}

static int all_words(uint64_t *answers)
{
    zeros(&word, BIRDOVESTA_WORD_BYTES);
    nothing_changes();
    answers[0] = check_word(LEAST, 2208);
    answers[1] = check_word(0, 2208);
    answers[2] = check_word(LEAST + 1, 2208);
    answers[3] = check_word(LEAST, 2207);
    answers[4] = check_word(PAYLOAD_MOST + 1, 0);
    int kept = bytes_right();
    flip(&word, 0);
    nothing_changes();
    answers[5] = check_word(LEAST, 2208);
    kept &= bytes_right();
    flip(&word, PAYLOAD_PLACES - 1);
    nothing_changes();
    answers[6] = check_word(LEAST, 2208);
    answers[7] = check_word(1, 2209);
    return kept && bytes_right();
}

static int all_lines(uint64_t *answers)
{
    put_line_of_zero(&line);
    nothing_changes();
    answers[0] = check_line(LEAST, LEAST_LINE, 1023);
    answers[1] = check_line(0, LEAST_LINE, 1023);
    answers[2] = check_line(LEAST + 1, LEAST_LINE, 1023);
    answers[3] = check_line(LEAST, LEAST_LINE - 1, 1023);
    answers[4] = check_line(LEAST, LEAST_LINE, 1024);
    answers[5] = check_line(LEAST, LEAST_LINE, 1022);
    int kept = bytes_right();
    flip(&line, LEAST + SENT + 10);
    nothing_changes();
    answers[6] = check_line(LEAST, LEAST_LINE, 1023);
    answers[7] = check_line(PAYLOAD_MOST + 1, 0, 1024);
    return kept && bytes_right();
}

/* A stream of so many bits; all else is as it is. */
static void hold_some(uint64_t number, uint64_t held)
{
    put_stream(&stream, number, held);
    nothing_changes();
}

static int all_pieces(uint64_t *answers)
{
    zeros(&piece, 40);
    hold_some(1, LEAST + 100);
    answers[0] = piece_fibre(STATE, 9, 2);
    int kept = bytes_right();
    hold_some(1, LEAST + 100);
    answers[1] = piece_fibre(STATE, 9, 1);
    answers[2] = piece_fibre(STATE, PAYLOAD_MOST, 1799);
    answers[3] = piece_fibre(STATE, PAYLOAD_MOST, 1798);
    kept &= bytes_right();
    flip(&piece, 9);
    hold_some(1, LEAST + 100);
    answers[4] = piece_fibre(STATE, 9, 2);
    kept &= bytes_right();
    hold_some(1, PAYLOAD_MOST + 1);
    answers[5] = piece_fibre(STATE, 9, 2);
    kept &= bytes_right();
    hold_some(2, LEAST);
    answers[6] = piece_fibre(STATE, 8, 1);
    kept &= bytes_right();
    hold_some(2, PAYLOAD_MOST + 1);
    answers[7] = piece_fibre(STATE, 9, 1);
    return kept && bytes_right();
}

static int all_finishes(uint64_t *answers)
{
    hold_some(1, LEAST);
    answers[0] = finish_fibre(STATE, 1023, TAIL);
    int kept = bytes_right();
    hold_some(1, LEAST);
    answers[1] = finish_fibre(STATE, 1024, TAIL);
    answers[2] = finish_fibre(STATE, 1023, TAIL - 1);
    kept &= bytes_right();
    hold_some(1, LEAST + 1);
    answers[3] = finish_fibre(STATE, 1023, TAIL);
    kept &= bytes_right();
    hold_some(1, 0);
    answers[4] = finish_fibre(STATE, 1023, TAIL);
    kept &= bytes_right();
    hold_some(1, PAYLOAD_MOST + 1);
    answers[5] = finish_fibre(STATE, 1023, TAIL);
    kept &= bytes_right();
    hold_some(3, LEAST);
    answers[6] = finish_fibre(STATE, 1023, TAIL);
    kept &= bytes_right();
    hold_some(0, PAYLOAD_MOST + 1);
    answers[7] = finish_fibre(STATE, 1024, 0);
    return kept && bytes_right();
}

static const struct {
    const char *name;
    int (*make)(uint64_t *answers);
    uint64_t plain[8]; /* the answers with the plain pair */
} calls[] = {
    { "encode", all_encodes, { 0, 1, 10, 2, 4, 5, 3, 1 } },
    { "check_word", all_words,
        { 0, 1, 10, 2, 1, VERDICT(BIRDOVESTA_CHECK, 6, 176), VERDICT(BIRDOVESTA_SHORTENED, 0, 14591), 10 } },
    { "check_line", all_lines, { 0, 1, 10, 2, 4, VERDICT(BIRDOVESTA_DELIMITER, 0, 0), 3, 1 } },
    { "piece", all_pieces, { 0, 2, 6, 2, 3, 7, 12, 12 } },
    { "finish", all_finishes, { 0, 4, 5, 10, 1, 7, 12, 12 } },
};

/* Each of these calls is refused by 16, whatever else is at
 * fault, and no byte is moved. */
static void all_refused(const char *list, const char *fault)
{
    char text[120], others[400] = "";
    for (size_t n = 0; n < sizeof calls / sizeof *calls; n++) {
        uint64_t answers[8];
        begin();
        int same = calls[n].make(answers);
        for (size_t m = 0; m < 8; m++)
            same &= answers[m] == 16;
        if (!same)
            snprintf(others + strlen(others), 100, "  not in %s\n", calls[n].name);
    }
    snprintf(text, sizeof text, "%s %s: 16", list, fault);
    fact(text, *others == 0);
    printf("%s", others);
}

static void lists_at_fault(void)
{
    /* The same calls with the plain pair. The first one of the
     * encoder, of a piece and of a finish writes. */
    put_lists(plain);
    for (size_t n = 0; n < sizeof calls / sizeof *calls; n++) {
        uint64_t answers[8];
        char text[80];
        begin();
        calls[n].make(answers);
        snprintf(text, sizeof text, "%s, no list at fault", calls[n].name);
        fact(text, memcmp(answers, calls[n].plain, sizeof answers) == 0);
    }

    static const struct {
        const char *text;
        void (*spoil)(struct list *list);
    } faults[] = {
        { "is empty", be_empty },
        { "is a byte short", byte_short },
        { "is an entry short", entry_short },
        { "is a byte long", byte_long },
        { "is an entry long", entry_long },
        { "has an entry twice", entry_twice },
        { "has no place 0", no_place_0 },
        { "has no last place", no_last_place },
        { "starts with its length", starts_with_length },
        { "ends with its length", ends_with_length },
        { "has 65535 in it", entry_of_65535 },
        { "is high byte first", high_byte_first },
    };
    for (size_t n = 0; n < sizeof faults / sizeof *faults; n++)
        for (unsigned lists = 1; lists < 4; lists++) {
            put_lists(plain);
            if (lists & 1)
                faults[n].spoil(&first);
            if (lists & 2)
                faults[n].spoil(&second);
            list_is_put(&first);
            list_is_put(&second);
            all_refused(lists == 1 ? "first" : lists == 2 ? "second" : "each", faults[n].text);
        }

    /* Each list in the other's place. */
    put_lists(plain);
    first.bytes = BIRDOVESTA_SECOND_BYTES;
    memcpy(second.all, first.all, sizeof second.all);
    second.bytes = BIRDOVESTA_FIRST_BYTES;
    list_is_put(&second);
    all_refused("each", "is the other one");
    put_lists(plain);
}

/* The coax codes */

/* A place, how many checks it is in, and the lowest. */
struct place {
    size_t place;
    unsigned count, row;
};

static const struct coax {
    const char *name;
    size_t payload_bits, payload_bytes, places, word_bytes;
    uint64_t (*encode)(size_t, const uint8_t *, size_t, uint8_t *, size_t);
    uint64_t (*check)(size_t, const uint8_t *, size_t);
    /* From the tables: the first and the last place of the
     * payload and of the parity. */
    struct place lessons[4];
    uint64_t lowest; /* of both payload places */
} coax_codes[] = {
    { "16200", 14400, 1800, 16200, BIRDOVESTA_WORD_16200_BYTES,
        birdovesta_encode_16200, birdovesta_check_16200,
        { { 0, 4, 267 }, { 14399, 4, 199 }, { 14400, 2, 217 }, { 16199, 1, 1799 } }, 199 },
    { "5940", 5040, 630, 5940, BIRDOVESTA_WORD_5940_BYTES,
        birdovesta_encode_5940, birdovesta_check_5940,
        { { 0, 5, 38 }, { 5039, 4, 275 }, { 5040, 2, 158 }, { 5939, 1, 880 } }, 38 },
};

/* A fact of a code: its name goes before the text. */
static void told_of(const struct coax *code, const char *text, uint64_t answer, uint64_t expected)
{
    char named[120];
    snprintf(named, sizeof named, "%s, %s", code->name, text);
    told(named, answer, expected);
}

static uint64_t encode_coax(const struct coax *code, size_t bits, size_t bytes, size_t room)
{
    return code->encode(bits, lent(&payload), bytes, lent(&word), room);
}

static uint64_t check_coax(const struct coax *code, size_t bits, size_t bytes)
{
    return code->check(bits, lent(&word), bytes);
}

/* A word of zeros. */
static void zero_word(const struct coax *code)
{
    begin();
    zeros(&word, code->word_bytes);
    nothing_changes();
}

static void coax_word_lessons(const struct coax *code)
{
    size_t bits = code->payload_bits, bytes = code->word_bytes;
    zero_word(code);
    told_of(code, "all 0: accepted", check_coax(code, bits, bytes), 0);

    for (size_t n = 0; n < 4; n++) {
        const struct place *lesson = &code->lessons[n];
        char text[80];
        snprintf(text, sizeof text, "bit %zu: %u fails %u",
            lesson->place, lesson->row, lesson->count);
        zero_word(code);
        flip(&word, lesson->place);
        nothing_changes();
        told_of(code, text, check_coax(code, bits, bytes), verdict(BIRDOVESTA_CHECK, lesson->count, lesson->row));
    }

    /* No check has both places. */
    zero_word(code);
    flip(&word, code->lessons[0].place);
    flip(&word, code->lessons[1].place);
    nothing_changes();
    told_of(code, "first and last payload bit", check_coax(code, bits, bytes),
        verdict(BIRDOVESTA_CHECK, code->lessons[0].count + code->lessons[1].count, code->lowest));

    zero_word(code);
    told_of(code, "word, 0 bits: refusal 1", check_coax(code, 0, bytes), 1);
    told_of(code, "word, bits - 1: refusal 1", check_coax(code, bits - 1, bytes), 1);
    told_of(code, "word, bits + 1: refusal 1", check_coax(code, bits + 1, bytes), 1);
    told_of(code, "word, all bits: refusal 1", check_coax(code, code->places, bytes), 1);
    told_of(code, "word, 257 bits: refusal 1", check_coax(code, LEAST, bytes), 1);
    told_of(code, "0 bits, 0 bytes: refusal 1", check_coax(code, 0, 0), 1);
    told_of(code, "word of 0 bytes: refusal 2", check_coax(code, bits, 0), 2);
    told_of(code, "word, bytes - 1: refusal 2", check_coax(code, bits, bytes - 1), 2);
    told_of(code, "word, bytes + 1: refusal 2", check_coax(code, bits, bytes + 1), 2);

    int all = 1;
    for (size_t place = code->places; place < 8 * bytes; place++) {
        zero_word(code);
        flip(&word, place);
        nothing_changes();
        all &= check_coax(code, bits, bytes) == 3 && check_coax(code, bits, bytes + 1) == 2
            && check_coax(code, 0, bytes) == 1 && bytes_right();
    }
    if (code->places < 8 * bytes)
        fact("5940, each unused bit: refusal 3", all);
}

static void coax_encoder_lessons(const struct coax *code)
{
    size_t bits = code->payload_bits, bytes = code->payload_bytes, needed = code->word_bytes;
    begin();
    zeros(&payload, bytes);
    nothing_changes();
    zeros(&word_later, needed);
    told_of(code, "payload of zeros: zeros", encode_coax(code, bits, bytes, needed), 0);

    begin();
    zeros(&payload, bytes);
    nothing_changes();
    zeros(&word_later, needed);
    told_of(code, "zeros, room to spare", encode_coax(code, bits, bytes, MOST), 0);

    begin();
    nothing_changes();
    told_of(code, "0 bits: refusal 1", encode_coax(code, 0, 0, MOST), 1);
    told_of(code, "bits - 1: refusal 1", encode_coax(code, bits - 1, bytes, MOST), 1);
    told_of(code, "bits + 1: refusal 1", encode_coax(code, bits + 1, bytes + 1, MOST), 1);
    told_of(code, "14392 bits: refusal 1", encode_coax(code, PAYLOAD_MOST, 1799, MOST), 1);
    told_of(code, "1 before 2 and 5", encode_coax(code, bits - 1, 0, 0), 1);
    told_of(code, "no bytes: refusal 2", encode_coax(code, bits, 0, MOST), 2);
    told_of(code, "bytes - 1: refusal 2", encode_coax(code, bits, bytes - 1, MOST), 2);
    told_of(code, "bytes + 1: refusal 2", encode_coax(code, bits, bytes + 1, MOST), 2);
    told_of(code, "2 before 5", encode_coax(code, bits, bytes + 1, 0), 2);
    told_of(code, "room - 1: refusal 5", encode_coax(code, bits, bytes, needed - 1), 5);
    told_of(code, "room 0: refusal 5", encode_coax(code, bits, bytes, 0), 5);
}

/* From the encoder to the check: the payload comes first, and
 * the check accepts it. The parity of such a payload is not
 * in the papers, so it is taken as written. */
static void coax_there_and_back(const struct coax *code)
{
    size_t bits = code->payload_bits, bytes = code->payload_bytes, needed = code->word_bytes;
    begin();
    nothing_changes();
    uint64_t answer = encode_coax(code, bits, bytes, MOST);
    memcpy(lent(&word_later), lent(&payload), bytes);
    memcpy(lent(&word_later) + bytes, lent(&word) + bytes, needed - bytes);
    told_of(code, "any payload comes first", answer, 0);
    told_of(code, "its word is accepted", check_coax(code, bits, needed), 0);

    /* In a word whose checks hold, a place spoils its own. */
    for (size_t n = 0; n < 4; n++) {
        const struct place *lesson = &code->lessons[n];
        char text[80];
        snprintf(text, sizeof text, "its bit %zu spoilt", lesson->place);
        flip(&word, lesson->place);
        nothing_changes();
        told_of(code, text, check_coax(code, bits, needed), verdict(BIRDOVESTA_CHECK, lesson->count, lesson->row));
        flip(&word, lesson->place);
    }
}

static void coax_lessons(void)
{
    for (size_t n = 0; n < sizeof coax_codes / sizeof *coax_codes; n++) {
        coax_word_lessons(&coax_codes[n]);
        coax_encoder_lessons(&coax_codes[n]);
        coax_there_and_back(&coax_codes[n]);
    }
}

/* Streams */

/* A place, and the checks that it is in. */
struct in_checks {
    size_t place, count, checks[6];
};

static const struct served {
    const char *name;
    uint64_t number;
    size_t most, in_use, needed;
    uint64_t (*piece)(size_t, size_t, size_t);
    uint64_t (*finish)(size_t, size_t, size_t);
    /* From the sheet, or from the tables. */
    struct in_checks places[4];
} served[] = {
    { "fibre", 1, 14392, 3072, TAIL, piece_fibre, finish_fibre,
        { { 0, 6, { 176, 919, 1655, 2304, 2607, 3019 } }, { 255, 6, { 175, 918, 1654, 2559, 2606, 3018 } },
            { 256, 6, { 256, 677, 1110, 1490, 1930, 2096 } }, { 14391, 3, { 311, 1214, 2677 } } } },
    { "16200", 2, 14400, 1800, BIRDOVESTA_PARITY_16200_BYTES, piece_16200, finish_16200,
        { { 0, 4, { 267, 446, 946, 1547 } }, { 14399, 4, { 199, 690, 1016, 1741 } } } },
    { "5940", 3, 5040, 900, BIRDOVESTA_PARITY_5940_BYTES, piece_5940, finish_5940,
        { { 0, 5, { 38, 306, 477, 692, 848 } }, { 5039, 4, { 275, 401, 701, 738 } } } },
};

enum { SERVED = sizeof served / sizeof *served };

/* A fact of a code's streams: its name goes before the text. */
static void told_stream(const struct served *code, const char *text, uint64_t answer, uint64_t expected)
{
    char named[120];
    snprintf(named, sizeof named, "%s, %s", code->name, text);
    told(named, answer, expected);
}

/* The same of a fact that several calls make up. */
static void fact_stream(const struct served *code, const char *text, int holds)
{
    char named[120];
    snprintf(named, sizeof named, "%s, %s", code->name, text);
    fact(named, holds);
}

/* So many bits of the payload, from a place on, are the next
 * piece. */
static void put_piece(size_t from, size_t bits)
{
    zeros(&piece, (bits + 7) / 8);
    for (size_t place = 0; place < bits; place++)
        if (bit(&payload, from + place))
            flip(&piece, place);
}

/* New contents, with a stream. */
static void begin_stream(const struct served *code, uint64_t held)
{
    begin();
    put_stream(&stream, code->number, held);
    nothing_changes();
}

/* Zeros up to a place, then a 1 there: the checks held are
 * those that the place is in. */
static void single_places(const struct served *code)
{
    for (size_t n = 0; n < 4 && code->places[n].count > 0; n++) {
        const struct in_checks *place = &code->places[n];
        char text[80];
        begin_stream(code, 0);
        zeros(&piece, (place->place + 7) / 8);
        nothing_changes();
        put_stream(&stream_later, code->number, place->place);
        snprintf(text, sizeof text, "%zu bits of 0 held", place->place);
        told_stream(code, text, code->piece(STATE, place->place, (place->place + 7) / 8), 0);

        lent(&piece)[0] = 1;
        nothing_changes();
        put_stream(&stream_later, code->number, place->place + 1);
        for (size_t m = 0; m < place->count; m++)
            flip_check(&stream_later, place->checks[m]);
        snprintf(text, sizeof text, "bit %zu in its %zu checks", place->place, place->count);
        told_stream(code, text, code->piece(STATE, 1, 1), 0);
    }
}

/* Feeds the payload of so many bits in pieces of several
 * sizes. Whether all are held, and no other byte has moved. */
static int feed(const struct served *code, size_t bits)
{
    static const size_t sizes[] = { 1, 7, 256, 0, 257, 8, 1799, 13, 360, 4096 };
    int all = 1;
    for (size_t held = 0, n = 0; held < bits; n++) {
        size_t size = sizes[n % (sizeof sizes / sizeof *sizes)];
        if (size > bits - held)
            size = bits - held;
        put_piece(held, size);
        nothing_changes();
        all &= code->piece(STATE, size, (size + 7) / 8) == 0;
        /* Number and count are told by the paper, the checks by the finish. */
        held += size;
        memcpy(lent(&stream_later), lent(&stream), STATE);
        put_number(&stream_later, 0, code->number);
        put_number(&stream_later, 8, held);
        all &= bytes_right();
    }
    return all;
}

/* A payload in pieces, beside the line word that the encoder
 * writes of it; a second one goes to the stream that is handed
 * back. */
static void fibre_streams(const char *name)
{
    const struct served *code = &served[0];
    static struct buffer encoded;
    char text[80];
    int fed = 1, finished = 1, same = 1;
    begin();
    put_stream(&stream, 1, 0);
    for (size_t bits = LEAST; bits <= PAYLOAD_MOST; bits += 11 * LEAST) {
        size_t delimiter = bits * 77 % 1024;
        struct buffer kept = stream;
        begin_payload(bits);
        stream = kept;
        fed &= encode(bits, (bits + 7) / 8, delimiter, MOST) == 0;
        encoded = line;
        fed &= feed(code, bits);
        fill(&line, 97);
        nothing_changes();
        finished &= finish_fibre(STATE, delimiter, MOST) == 0;
        for (size_t place = 0; place < SENT + 10; place++)
            same &= bit(&line, place) == bit(&encoded, bits + place);
        memcpy(lent(&line_later), lent(&line), TAIL);
        same &= lent(&line)[TAIL - 1] < 4;
        put_stream(&stream_later, 1, 0);
        finished &= bytes_right();
    }
    snprintf(text, sizeof text, "%s: pieces held", name);
    fact(text, fed);
    snprintf(text, sizeof text, "%s: encoder's tail", name);
    fact(text, same);
    snprintf(text, sizeof text, "%s: fresh again", name);
    fact(text, finished);
}

/* The same for a coax code, twice on one stream. Before it is
 * finished, each call of another code refuses it. */
static void coax_stream(const struct served *code, const struct coax *coax)
{
    static struct buffer encoded;
    size_t bits = code->most;
    begin_stream(code, 0);
    for (unsigned turn = 0; turn < 2; turn++) {
        fill(&payload, 60 + turn);
        fact_stream(code, turn ? "second payload held" : "payload held",
            encode_coax(coax, bits, bits / 8, MOST) == 0 && feed(code, bits));
        encoded = word;
        nothing_changes();
        for (size_t n = 0; n < SERVED; n++)
            if (&served[n] != code) {
                char text[80];
                snprintf(text, sizeof text, "ended as %s: refusal 12", served[n].name);
                told_stream(code, text, served[n].finish(STATE, 0, MOST), 12);
                told_stream(code, "and with no room", served[n].finish(STATE, 0, 0), 12);
                told_stream(code, "and by a piece of 0 bits", served[n].piece(STATE, 0, 0), 12);
            }
        memcpy(lent(&line_later), lent(&encoded) + bits / 8, code->needed);
        put_stream(&stream_later, code->number, 0);
        told_stream(code, "encoder's parity, fresh", code->finish(STATE, 0, MOST), 0);
    }
}

/* What the sheet says of streams, and W8 and W9. */
static void stream_lessons(const struct served *code)
{
    begin_stream(code, 0);
    told_stream(code, "fresh, finish: refusal 1", code->finish(STATE, 1024, 0), 1);
    told_stream(code, "fresh, 0 bits held", code->piece(STATE, 0, 0), 0);

    begin_stream(code, code->most);
    lent(&piece)[0] = 1;
    nothing_changes();
    told_stream(code, "full, piece of 0 bits held", code->piece(STATE, 0, 0), 0);
    told_stream(code, "full, 1 bit: refusal 6", code->piece(STATE, 1, 1), 6);
    told_stream(code, "no bytes: refusal 2", code->piece(STATE, 1, 0), 2);
    lent(&piece)[0] = 2;
    nothing_changes();
    told_stream(code, "unused bit: refusal 3", code->piece(STATE, 1, 1), 3);
    told_stream(code, "room - 1: refusal 5", code->finish(STATE, 0, code->needed - 1), 5);
    told_stream(code, "room 0: refusal 5", code->finish(STATE, 0, 0), 5);

    /* Checks that are all 0 have a parity of zeros. */
    zeros(&line_later, code->needed);
    if (code->number == 1)
        memcpy(lent(&line_later) + 320, "\xFF\x03", 2);
    put_stream(&stream_later, code->number, 0);
    told_stream(code, "full of 0: zeros, fresh", code->finish(STATE, 1023, code->needed), 0);
    nothing_changes();
    told_stream(code, "finish again: refusal 1", code->finish(STATE, 1023, code->needed), 1);

    /* Another count than can be finished. */
    begin_stream(code, LEAST - 1);
    told_stream(code, "finish at 256 bits", code->finish(STATE, 1024, 0), code->number == 1 ? 10 : 1);
    begin_stream(code, code->most - 1);
    told_stream(code, "finish with 1 bit less", code->finish(STATE, 1024, 0), code->number == 1 ? 10 : 1);
    begin_stream(code, 19 * LEAST);
    told_stream(code, "finish at 19 data blocks", code->finish(STATE, 1024, 0), code->number == 1 ? 4 : 1);
}

/* Each call refuses the stream, whatever else is at fault, and
 * no byte is moved. */
static int stream_refused(const struct served *code, size_t state, uint64_t number)
{
    nothing_changes();
    return code->piece(state, 0, 0) == number && code->piece(state, 8, 1) == number
        && code->piece(state, 8, 0) == number && code->piece(state, 16000, 2000) == number
        && code->finish(state, 0, MOST) == number && code->finish(state, 1024, MOST) == number
        && code->finish(state, 0, 0) == number && bytes_right();
}

/* The state's own faults: the number, then what is held. */
static void states_at_fault(const struct served *code)
{
    static const uint64_t unknown[] = { 0, 4, 255, 256, 1ull << 32, 1ull << 63, UINT64_MAX };
    static const uint64_t held[] = { 0, 257, 5040, 14392, 14400, 14401, UINT64_MAX };
    int all = 1, others = 1, high = 1, counts = 1, past = 1, used = 1;
    for (size_t n = 0; n < sizeof held / sizeof *held; n++) {
        for (size_t m = 0; m < sizeof unknown / sizeof *unknown; m++) {
            begin_stream(code, held[n]);
            put_number(&stream, 0, unknown[m]);
            all &= stream_refused(code, STATE, 12);
        }
        for (size_t m = 0; m < SERVED; m++) {
            begin_stream(&served[m], held[n]);
            others &= &served[m] == code || stream_refused(code, STATE, 12);
        }
        for (size_t byte = 1; byte < 8; byte++) {
            begin_stream(code, held[n]);
            lent(&stream)[byte] = 1;
            high &= stream_refused(code, STATE, 12);
        }
    }
    fact_stream(code, "unknown number: refusal 12", all);
    fact_stream(code, "other codes: refusal 12", others);
    fact_stream(code, "high byte more: refusal 12", high);

    begin_stream(code, code->most + 1);
    counts &= stream_refused(code, STATE, 7);
    for (size_t byte = 2; byte < 8; byte++) {
        begin_stream(code, LEAST);
        lent(&stream)[8 + byte] = 128;
        counts &= stream_refused(code, STATE, 7);
    }
    begin_stream(code, UINT64_MAX);
    counts &= stream_refused(code, STATE, 7);
    fact_stream(code, "too many held: refusal 7", counts);

    for (size_t check = 0; check < 3072; check++) {
        begin_stream(code, 100);
        flip_check(&stream, check);
        if (check >= code->in_use) {
            past &= stream_refused(code, STATE, 7);
            continue;
        }
        nothing_changes();
        used &= code->piece(STATE, 0, 0) == 0 && bytes_right();
    }
    fact_stream(code, "each check in use may be 1", used);
    if (code->in_use < 3072)
        fact_stream(code, "past them a 1: refusal 7", past);

    /* All at once. */
    begin_stream(code, 100);
    for (size_t check = 0; check < code->in_use; check++)
        flip_check(&stream, check);
    nothing_changes();
    told_stream(code, "all of them may be 1", code->piece(STATE, 0, 0), 0);

    begin_stream(code, code->most + 1);
    put_number(&stream, 0, 4);
    fact_stream(code, "12 goes before 7", stream_refused(code, STATE, 12));
}

/* A stream of another size, whatever its bytes say. */
static void other_sizes(const struct served *code)
{
    static const size_t sizes[] = { 0, 1, 8, 16, 384, 399, 401, 448, 656, 800 };
    int all = 1, spoilt = 1, lists = 1;
    for (size_t n = 0; n < sizeof sizes / sizeof *sizes; n++) {
        begin_stream(code, LEAST);
        all &= stream_refused(code, sizes[n], 17);
        begin_stream(code, code->most + 1);
        put_number(&stream, 0, 0);
        spoilt &= stream_refused(code, sizes[n], 17);
        begin_stream(code, LEAST);
        be_empty(&first);
        lists &= stream_refused(code, sizes[n], 17);
        put_lists(plain);
    }
    fact_stream(code, "other sizes: refusal 17", all);
    fact_stream(code, "17 goes before 12 and 7", spoilt);
    if (code->number == 1)
        fact_stream(code, "17 goes before 16", lists);
}

static void streams(void)
{
    for (size_t n = 0; n < SERVED; n++) {
        single_places(&served[n]);
        stream_lessons(&served[n]);
        states_at_fault(&served[n]);
        other_sizes(&served[n]);
    }
    fibre_streams("stream");
    shuffle(&first);
    shuffle(&second);
    fibre_streams("stream, shuffled");
    put_lists(plain);
    for (size_t n = 1; n < SERVED; n++)
        coax_stream(&served[n], &coax_codes[n - 1]);
}

int main(void)
{
    put_lists(plain);
    full_word_lessons();
    encoder_lessons();
    line_lessons();
    there_and_back("16 counts K");
    other_lists();
    lists_at_fault();
    coax_lessons();
    streams();
    printf("%u right, %u wrong\n", right, wrong);
    return wrong > 0;
}
