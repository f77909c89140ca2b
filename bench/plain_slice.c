/* Reads raw slices in plain C, to be measured against the library. */
#include "plain.h"

#include <stdbool.h>
#include <stdlib.h>
#include <string.h>

#include "format3.h"

enum { GIVES_SCALE = 1, GIVES_FORWARD = 2, GIVES_BACKWARD = 4, GIVES_PATTERN = 8, IS_INTRA = 16 };
enum { F_CODE_MOST = 7, LAST_POSITION = 63, ESCAPE_STEP = 33 };

#ifdef PLAIN_CENSUS
#define COUNT_CODE() (plain_census.codes++)
#else
#define COUNT_CODE() ((void)0)
#endif

/* ---- the tables of Annex B: words with their values; for coefficients, level and run */

static const char INCREMENT_WORDS[] =
    "1=1 011=2 010=3 0011=4 0010=5 00011=6 00010=7 0000111=8 0000110=9 00001011=10 00001010=11 00001001=12 "
    "00001000=13 00000111=14 00000110=15 0000010111=16 0000010110=17 0000010101=18 0000010100=19 0000010011=20 "
    "0000010010=21 00000100011=22 00000100010=23 00000100001=24 00000100000=25 00000011111=26 00000011110=27 "
    "00000011101=28 00000011100=29 00000011011=30 00000011010=31 00000011001=32 00000011000=33 ";
static const char ESCAPE_WORD[] = "00000001000=34";
static const char STUFFING_WORD[] = "00000001111=35";
static const char I_TYPE_WORDS[] =
    "1=16 01=17 ";
static const char P_TYPE_WORDS[] =
    "1=10 01=8 001=2 00011=16 00010=11 00001=9 000001=17 ";
static const char B_TYPE_WORDS[] =
    "10=6 11=14 010=4 011=12 0010=2 0011=10 00011=16 00010=15 000011=11 000010=13 000001=17 ";
static const char PATTERN_WORDS[] =
    "111=60 1101=4 1100=8 1011=16 1010=32 10011=12 10010=48 10001=20 10000=40 01111=28 01110=44 01101=52 01100=56 "
    "01011=1 01010=61 01001=2 01000=62 001111=24 001110=36 001101=3 001100=63 0010111=5 0010110=9 0010101=17 "
    "0010100=33 0010011=6 0010010=10 0010001=18 0010000=34 00011111=7 00011110=11 00011101=19 00011100=35 "
    "00011011=13 00011010=49 00011001=21 00011000=41 00010111=14 00010110=50 00010101=22 00010100=42 00010011=15 "
    "00010010=51 00010001=23 00010000=43 00001111=25 00001110=37 00001101=26 00001100=38 00001011=29 00001010=45 "
    "00001001=53 00001000=57 00000111=30 00000110=46 00000101=54 00000100=58 000000111=31 000000110=47 "
    "000000101=55 000000100=59 000000011=27 000000010=39 ";
static const char MOTION_WORDS[] =
    "00000011001=-16 00000011011=-15 00000011101=-14 00000011111=-13 00000100001=-12 00000100011=-11 "
    "0000010011=-10 0000010101=-9 0000010111=-8 00000111=-7 00001001=-6 00001011=-5 0000111=-4 00011=-3 0011=-2 "
    "011=-1 1=0 010=1 0010=2 00010=3 0000110=4 00001010=5 00001000=6 00000110=7 0000010110=8 0000010100=9 "
    "0000010010=10 00000100010=11 00000100000=12 00000011110=13 00000011100=14 00000011010=15 00000011000=16 ";
static const char LUMA_SIZE_WORDS[] =
    "100=0 00=1 01=2 101=3 110=4 1110=5 11110=6 111110=7 1111110=8 ";
static const char CHROMA_SIZE_WORDS[] =
    "00=0 01=1 10=2 110=3 1110=4 11110=5 111110=6 1111110=7 11111110=8 ";
static const char SHORT_COEFFICIENT_WORDS[] =
    "011=1,1 0100=2,0 0101=1,2 00101=3,0 00111=1,3 00110=1,4 000110=2,1 000111=1,5 000101=1,6 000100=1,7 "
    "0000110=4,0 0000100=2,2 0000111=1,8 0000101=1,9 00100110=5,0 00100001=6,0 00100101=3,1 00100100=2,3 "
    "00100111=1,10 00100011=1,11 00100010=1,12 00100000=1,13 ";
static const char LONG_COEFFICIENT_WORDS[] =
    "1010=7,0 1100=4,1 1011=3,2 1111=2,4 1001=2,5 1110=1,14 1101=1,15 1000=1,16 011101=8,0 011000=9,0 010011=10,0 "
    "010000=11,0 011011=5,1 010100=4,2 011100=3,3 010010=3,4 011110=2,6 010101=2,7 010001=2,8 011111=1,17 "
    "011010=1,18 011001=1,19 010111=1,20 010110=1,21 0011010=12,0 0011001=13,0 0011000=14,0 0010111=15,0 "
    "0010110=6,1 0010101=7,1 0010100=5,2 0010011=4,3 0010010=3,5 0010001=2,9 0010000=2,10 0011111=1,22 "
    "0011110=1,23 0011101=1,24 0011100=1,25 0011011=1,26 00011111=16,0 00011110=17,0 00011101=18,0 00011100=19,0 "
    "00011011=20,0 00011010=21,0 00011001=22,0 00011000=23,0 00010111=24,0 00010110=25,0 00010101=26,0 "
    "00010100=27,0 00010011=28,0 00010010=29,0 00010001=30,0 00010000=31,0 000011000=32,0 000010111=33,0 "
    "000010110=34,0 000010101=35,0 000010100=36,0 000010011=37,0 000010010=38,0 000010001=39,0 000010000=40,0 "
    "000011111=8,1 000011110=9,1 000011101=10,1 000011100=11,1 000011011=12,1 000011010=13,1 000011001=14,1 "
    "0000010011=15,1 0000010010=16,1 0000010001=17,1 0000010000=18,1 0000010100=3,6 0000011010=2,11 "
    "0000011001=2,12 0000011000=2,13 0000010111=2,14 0000010110=2,15 0000010101=2,16 0000011111=1,27 "
    "0000011110=1,28 0000011101=1,29 0000011100=1,30 0000011011=1,31 ";

/* Values that are not an increment, and level-0 values that are not a pair. */
enum { ESCAPED_INCREMENT = 34, STUFFING = 35 };
enum { END_OF_BLOCK = 0, ESCAPE = 1 };

/* What the next bits, as many as the table is wide, mean. The length is 0 if they begin no code. */
struct entry {
    int8_t value;
    uint8_t run;
    uint8_t length;
};

enum { MAX_CODE_BITS = 11 };

struct table {
    unsigned width;
    struct entry entries[1 << MAX_CODE_BITS];
};

/* The long words of coefficients start with six zeros. */
enum { LONG_PREFIX = 6 };

static struct {
    bool filled;
    struct table increments, increments_after_escape, types[3], patterns, motion, luma_sizes, chroma_sizes;
    struct table short_first, short_next, long_coefficients;
} tables;

/* Fills every entry that starts with a word. */
static void fill_word(struct table *table, unsigned word, unsigned length, long value, long run)
{
    unsigned rest = table->width - length;
    for (unsigned k = 0; k < 1u << rest; k++)
        table->entries[(word << rest) + k] = (struct entry){(int8_t)value, (uint8_t)run, (uint8_t)length};
}

static void fill(struct table *table, unsigned width, const char *words)
{
    table->width = width;
    while (*words != '\0') {
        unsigned word = 0, length = 0;
        for (; *words != '='; words++, length++)
            word = 2 * word + (*words == '1');
        char *after;
        long value = strtol(words + 1, &after, 10);
        long run = *after == ',' ? strtol(after + 1, &after, 10) : 0;
        fill_word(table, word, length, value, run);
        words = after + (*after == ' ');
    }
}

static void fill_tables(void)
{
    fill(&tables.increments, 11, INCREMENT_WORDS);
    fill(&tables.increments, 11, ESCAPE_WORD);
    tables.increments_after_escape = tables.increments;
    fill(&tables.increments, 11, STUFFING_WORD);
    fill(&tables.types[0], 6, I_TYPE_WORDS);
    fill(&tables.types[1], 6, P_TYPE_WORDS);
    fill(&tables.types[2], 6, B_TYPE_WORDS);
    fill(&tables.patterns, 9, PATTERN_WORDS);
    fill(&tables.motion, 11, MOTION_WORDS);
    fill(&tables.luma_sizes, 7, LUMA_SIZE_WORDS);
    fill(&tables.chroma_sizes, 8, CHROMA_SIZE_WORDS);
    fill(&tables.short_next, 8, SHORT_COEFFICIENT_WORDS);
    fill_word(&tables.short_next, 1, 6, 0, ESCAPE);
    tables.short_first = tables.short_next;
    fill_word(&tables.short_first, 1, 1, 1, 0);
    fill_word(&tables.short_next, 3, 2, 1, 0);
    fill_word(&tables.short_next, 2, 2, 0, END_OF_BLOCK);
    fill(&tables.long_coefficients, 10, LONG_COEFFICIENT_WORDS);
    tables.filled = true;
}

/* ---- bits and codes */

/* A place between two macroblocks: how many bits of the slice are read, and how long its records are. */
struct checkpoint {
    size_t at;
    size_t written;
};

/* A slice, how many of its bits are read, where its records go, how long they are, the last place up to which they all fit the
 * buffer, and why and where the slice is refused, if it is. A field that does not fit the buffer whole is dropped. */
struct reader {
    const uint8_t *bytes;
    size_t length;
    size_t at;
    uint8_t *records;
    size_t records_length;
    size_t written;
    struct checkpoint whole;
    uint32_t number;
    size_t place;
};

static size_t bits_left(const struct reader *reader)
{
    return 8 * reader->length - reader->at;
}

/* The next 32 bits, zeros past the end. */
static uint32_t peek(const struct reader *reader)
{
    size_t byte = reader->at / 8;
    uint64_t window = 0;
    if (byte + 8 <= reader->length) {
        memcpy(&window, reader->bytes + byte, 8);
        window = __builtin_bswap64(window);
    } else {
        for (size_t k = 0; k < 8; k++)
            window = window << 8 | (byte + k < reader->length ? reader->bytes[byte + k] : 0);
    }
    return (uint32_t)(window << reader->at % 8 >> 32);
}

static bool refuse(struct reader *reader, uint32_t number, size_t place)
{
    reader->number = number;
    reader->place = place;
    return false;
}

/* Why the remaining bits match no entry: 25 if they begin one, else 24. */
static uint32_t refusal_of(const struct table *table, uint32_t bits, size_t left)
{
    if (left >= table->width)
        return FORMAT3_REFUSED_SLICE_CODE;
    unsigned missing = table->width - (unsigned)left;
    uint32_t first = left == 0 ? 0 : bits >> (32 - left) << missing;
    for (uint32_t k = 0; k < 1u << missing; k++)
        if (table->entries[first + k].length > 0)
            return FORMAT3_REFUSED_SLICE_CUT;
    return FORMAT3_REFUSED_SLICE_CODE;
}

static bool read_code(struct reader *reader, const struct table *table, int *value)
{
    uint32_t bits = peek(reader);
    struct entry entry = table->entries[bits >> (32 - table->width)];
    if (entry.length == 0 || entry.length > bits_left(reader))
        return refuse(reader, refusal_of(table, bits, bits_left(reader)), reader->at);
    COUNT_CODE();
    reader->at += entry.length;
    *value = entry.value;
    return true;
}

static bool read_number(struct reader *reader, unsigned width, uint32_t *number)
{
    if (bits_left(reader) < width)
        return refuse(reader, FORMAT3_REFUSED_SLICE_CUT, reader->at);
    COUNT_CODE();
    *number = peek(reader) >> (32 - width);
    reader->at += width;
    return true;
}

/* ---- records */

static void put(struct reader *reader, unsigned byte)
{
    if (reader->written < reader->records_length)
        reader->records[reader->written] = (uint8_t)byte;
    reader->written++;
}

static void put_word(struct reader *reader, unsigned word)
{
    put(reader, word >> 8 & 255);
    put(reader, word & 255);
}

static void put_pair(struct reader *reader, int run, int level)
{
    if (reader->written + 3 <= reader->records_length) {
        uint8_t *at = reader->records + reader->written;
        at[0] = (uint8_t)run;
        at[1] = (uint8_t)(level >> 8);
        at[2] = (uint8_t)level;
    }
    reader->written += 3;
}

/* Fills in a byte that is known only after what it counts. */
static void put_at(struct reader *reader, size_t at, unsigned byte)
{
    if (at < reader->records_length)
        reader->records[at] = (uint8_t)byte;
}

/* ---- coefficients */

struct pair {
    bool end;
    int run;
    int level;
};

/* The level after an escape and its run; the code started at `place`. */
static bool read_escaped_level(struct reader *reader, size_t place, int *level)
{
    size_t left = bits_left(reader);
    uint32_t bits = peek(reader);
    unsigned high = bits >> 24, low = bits >> 16 & 255;
    if (left < 8)
        return refuse(reader, FORMAT3_REFUSED_SLICE_CUT, place);
    if (high != 0 && high != 128) {
        *level = (int8_t)high;
        reader->at += 8;
        return true;
    }
    /* The smallest and largest value that the low byte can still have. */
    unsigned unknown = left >= 16 ? 0 : 0xffu >> (left - 8);
    unsigned least = low, greatest = low | unknown;
    bool legal = high == 0 ? greatest >= 128 : greatest >= 1 && least <= 128;
    if (!legal)
        return refuse(reader, FORMAT3_REFUSED_SLICE_CODE, place);
    if (left < 16)
        return refuse(reader, FORMAT3_REFUSED_SLICE_CUT, place);
    *level = high == 0 ? (int)low : (int)low - 256;
    reader->at += 16;
    return true;
}

static bool read_escape(struct reader *reader, size_t place, struct pair *pair)
{
    if (bits_left(reader) < 6)
        return refuse(reader, FORMAT3_REFUSED_SLICE_CUT, place);
    pair->run = (int)(peek(reader) >> 26);
    reader->at += 6;
    return read_escaped_level(reader, place, &pair->level);
}

/* Reads a coefficient's word from the table of its first eight bits or, if six of them are zeros, of the ten bits after these. */
static bool read_pair(struct reader *reader, const struct table *short_words, struct pair *pair)
{
    size_t place = reader->at;
    uint32_t bits = peek(reader);
    const struct table *table = short_words;
    if (bits >> (32 - LONG_PREFIX) == 0) {
        if (bits_left(reader) < LONG_PREFIX)
            return refuse(reader, FORMAT3_REFUSED_SLICE_CUT, place);
        table = &tables.long_coefficients;
        reader->at += LONG_PREFIX;
        bits <<= LONG_PREFIX;
    }
    struct entry entry = table->entries[bits >> (32 - table->width)];
    if (entry.length == 0 || entry.length > bits_left(reader))
        return refuse(reader, refusal_of(table, bits, bits_left(reader)), place);
    COUNT_CODE();
    reader->at += entry.length;
    pair->end = entry.value == 0 && entry.run == END_OF_BLOCK;
    if (pair->end)
        return true;
    if (entry.value == 0)
        return read_escape(reader, place, pair);
    if (bits_left(reader) == 0)
        return refuse(reader, FORMAT3_REFUSED_SLICE_CUT, place);
    reader->at++;
    pair->run = entry.run;
    pair->level = bits << entry.length >> 31 ? -entry.value : entry.value;
    return true;
}

static inline __attribute__((always_inline)) bool read_pairs_of(struct reader *reader, bool intra)
{
    const struct table *table = intra ? &tables.short_next : &tables.short_first;
    size_t count_at = reader->written;
    unsigned count = 0;
    int position = intra ? 0 : -1;
    put(reader, 0);
    for (;; count++) {
        struct pair pair;
        size_t place = reader->at;
        if (!read_pair(reader, table, &pair))
            return false;
        if (pair.end)
            break;
        position += pair.run + 1;
        if (position > LAST_POSITION)
            return refuse(reader, FORMAT3_REFUSED_SLICE_CODE, place);
        put_pair(reader, pair.run, pair.level);
        table = &tables.short_next;
    }
    put_at(reader, count_at, count);
    return true;
}

/* Works on a copy of the reader, which can stay in registers: a byte written to the buffer might otherwise alias it. */
static bool read_pairs(struct reader *reader, bool intra)
{
    struct reader copy = *reader;
    bool read = read_pairs_of(&copy, intra);
    *reader = copy;
    return read;
}

/* ---- macroblocks */

static bool read_dc(struct reader *reader, int block)
{
    int size;
    uint32_t bits;
    if (!read_code(reader, block < 4 ? &tables.luma_sizes : &tables.chroma_sizes, &size))
        return false;
    if (size == 0) {
        put_word(reader, 0);
        return true;
    }
    if (!read_number(reader, (unsigned)size, &bits))
        return false;
    bool negative = bits >> (size - 1) == 0;
    put_word(reader, negative ? bits - (1u << size) + 1 : bits);
    return true;
}

static bool read_blocks(struct reader *reader, bool intra, int pattern)
{
    for (int block = 0; block < 6; block++) {
        if ((pattern & 32 >> block) == 0)
            continue;
        if (intra && !read_dc(reader, block))
            return false;
        if (!read_pairs(reader, intra))
            return false;
    }
    return true;
}

static bool read_vector(struct reader *reader, uint32_t f_code)
{
    for (int component = 0; component < 2; component++) {
        int code;
        uint32_t residual = 0;
        if (!read_code(reader, &tables.motion, &code))
            return false;
        if (code != 0 && f_code > 1 && !read_number(reader, f_code - 1, &residual))
            return false;
        put(reader, (unsigned)code & 255);
        put(reader, residual);
    }
    return true;
}

/* A macroblock after its increment. */
static bool read_macroblock(struct reader *reader, const struct format3_picture_parameters *given, unsigned increment)
{
    int type, pattern;
    uint32_t scale;
    size_t start = reader->written;
    put_word(reader, 0);
    put(reader, FORMAT3_KIND_MACROBLOCK);
    if (!read_code(reader, &tables.types[given->coding_type - 1], &type))
        return false;
    put(reader, (unsigned)type);
    put_word(reader, increment);
    if (type & GIVES_SCALE) {
        if (!read_number(reader, 5, &scale))
            return false;
        put(reader, scale);
    }
    if (type & GIVES_FORWARD && !read_vector(reader, given->forward_f_code))
        return false;
    if (type & GIVES_BACKWARD && !read_vector(reader, given->backward_f_code))
        return false;
    pattern = type & IS_INTRA ? 63 : 0;
    if (type & GIVES_PATTERN) {
        if (!read_code(reader, &tables.patterns, &pattern))
            return false;
        put(reader, (unsigned)pattern);
    }
    if (!read_blocks(reader, type & IS_INTRA, pattern))
        return false;
    size_t length = reader->written - start - 2;
    put_at(reader, start, (unsigned)(length >> 8));
    put_at(reader, start + 1, (unsigned)length & 255);
    return true;
}

static bool read_increment(struct reader *reader, unsigned *increment)
{
    const struct table *table = &tables.increments;
    int value;
    *increment = 0;
    for (;;) {
        size_t place = reader->at;
        if (!read_code(reader, table, &value))
            return false;
        if (value == STUFFING)
            continue;
        *increment += value == ESCAPED_INCREMENT ? ESCAPE_STEP : (unsigned)value;
        if (*increment > FORMAT3_MAX_MACROBLOCKS)
            return refuse(reader, FORMAT3_REFUSED_SLICE_CODE, place);
        if (value != ESCAPED_INCREMENT)
            return true;
        table = &tables.increments_after_escape;
    }
}

/* ---- slices */

static bool read_start_code(struct reader *reader, uint32_t height, unsigned *row)
{
    static const uint8_t prefix[3] = {0, 0, 1};
    for (size_t k = 0; k < 3; k++) {
        if (k == reader->length)
            return refuse(reader, FORMAT3_REFUSED_SLICE_CUT, 0);
        if (reader->bytes[k] != prefix[k])
            return refuse(reader, FORMAT3_REFUSED_SLICE_CODE, 0);
    }
    if (reader->length == 3)
        return refuse(reader, FORMAT3_REFUSED_SLICE_CUT, 0);
    *row = reader->bytes[3];
    if (*row == 0 || *row > height)
        return refuse(reader, FORMAT3_REFUSED_SLICE_CODE, 0);
    reader->at = 32;
    return true;
}

static bool skip_extra_information(struct reader *reader)
{
    uint32_t more;
    for (;;) {
        if (!read_number(reader, 1, &more))
            return false;
        if (more == 0)
            return true;
        if (!read_number(reader, 8, &more))
            return false;
    }
}

static bool only_zeros_left(const struct reader *reader)
{
    size_t byte = reader->at / 8;
    if (byte == reader->length)
        return true;
    if ((reader->bytes[byte] & 0xff >> reader->at % 8) != 0)
        return false;
    while (++byte < reader->length)
        if (reader->bytes[byte] != 0)
            return false;
    return true;
}

/* Reads the macroblocks after the first. */
static bool read_macroblocks(struct reader *reader, const struct format3_picture_parameters *given)
{
    unsigned increment;
    for (;;) {
        if (reader->written <= reader->records_length)
            reader->whole = (struct checkpoint){reader->at, reader->written};
        if (only_zeros_left(reader))
            return true;
        if (!read_increment(reader, &increment) || !read_macroblock(reader, given, increment))
            return false;
    }
}

/* Reads the slice, and says whether it is accepted. */
static bool read_slice(struct reader *reader, const struct format3_picture_parameters *given)
{
    unsigned row, increment;
    uint32_t scale;
    if (!read_start_code(reader, given->height, &row) || !read_number(reader, 5, &scale))
        return false;
    if (!skip_extra_information(reader) || !read_increment(reader, &increment))
        return false;
    put_word(reader, 4);
    put(reader, FORMAT3_KIND_SLICE);
    put(reader, scale);
    put_word(reader, (row - 1) * given->width + increment - 1);
    return read_macroblock(reader, given, 1) && read_macroblocks(reader, given);
}

static bool is_f_code(bool used, uint32_t f_code)
{
    return used ? f_code >= 1 && f_code <= F_CODE_MOST : f_code == 0;
}

static bool is_legal(const struct format3_picture_parameters *given)
{
    return given->width >= 1 && given->width <= FORMAT3_MAX_WIDTH && given->height >= 1 && given->height <= FORMAT3_MAX_HEIGHT
        && given->width * given->height <= FORMAT3_MAX_MACROBLOCKS
        && given->coding_type >= FORMAT3_I_PICTURE && given->coding_type <= FORMAT3_B_PICTURE
        && is_f_code(given->coding_type >= FORMAT3_P_PICTURE, given->forward_f_code)
        && is_f_code(given->coding_type == FORMAT3_B_PICTURE, given->backward_f_code);
}

/* Reads the macroblocks from the checkpoint on again, into this buffer. The census counts their codes only once. */
static void read_again(
    struct reader *reader, const struct format3_picture_parameters *given, uint8_t *records, size_t records_length)
{
    unsigned long codes = plain_census.codes;
    reader->records = records;
    reader->records_length = records_length;
    reader->at = reader->whole.at;
    reader->written = reader->whole.written;
    read_macroblocks(reader, given);
    plain_census.codes = codes;
}

/* The size of the library's room. The slice record and the first macroblock's always fit it. */
enum { ROOM_BYTES = 8192 };

/* Like the library, first writes to a room, so that a refused slice leaves the buffer untouched. Then it copies the records that
 * are whole in the room, and reads the others again, straight into the buffer. */
uint32_t plain_read_slice(
    const uint8_t *slice, size_t slice_length,
    const struct format3_picture_parameters *parameters,
    uint8_t *records, size_t records_length,
    struct format3_slice_result *result)
{
    uint8_t room[ROOM_BYTES];
    struct reader reader = {.bytes = slice, .length = slice_length, .records = room, .records_length = sizeof room};
    *result = (struct format3_slice_result){0, 0, 0};
    if (!tables.filled)
        fill_tables();
    if (!is_legal(parameters))
        return FORMAT3_REFUSED_HEADER;
    if (!read_slice(&reader, parameters)) {
        result->byte = reader.place / 8;
        result->bit = reader.place % 8;
        return reader.number;
    }
    if (reader.written > records_length)
        return FORMAT3_REFUSED_RECORDS_LENGTH;
    memcpy(records, room, reader.whole.written);
    if (reader.whole.written < reader.written)
        read_again(&reader, parameters, records, records_length);
    result->written = reader.written;
    result->byte = reader.at / 8;
    result->bit = reader.at % 8;
    return FORMAT3_ACCEPTED;
}
