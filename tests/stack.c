/* stack SLICES FILE..: measures how much stack each function of the library takes, and fails if one takes more than format3.h
 * says. SLICES is the list of raw slices among the fixtures; a FILE is a reel (.reel) or a video stream (.m1v).
 *
 * Each call runs on a stack of its own, which is painted before and read after. It is measured from its caller's frame, so its
 * arguments and its return address count. tests/stack.sh compiles examples/c, which play the files, so that these call the
 * measured_ functions below; each of these tries the call on damaged copies too. */
#include <stdbool.h>
#include <stdint.h>
#include <stdio.h>
#include <stdlib.h>
#include <string.h>
#include <sys/mman.h>
#include <ucontext.h>

#include "decoder.h"
#include "show.h"
#include "stream.h"

_Noreturn static void fail(const char *what, const char *why)
{
    fprintf(stderr, "stack: %s: %s\n", what, why);
    exit(2);
}

/* ---- what is measured */

enum measured {
    READ_SLICE,
    READ_SLICE_REFUSED,
    READ_SLICE_PARAMETERS,
    RECONSTRUCT,
    RECONSTRUCT_REFUSED,
    RECONSTRUCT_SMALL,
    RECONSTRUCT_SMALL_REFUSED,
    RECONSTRUCT_SMALL_LIMIT,
    TRANSFORM,
    READ_HEADER,
    SHOW_RECORD,
    INTRA_COEFFICIENT,
    NON_INTRA_COEFFICIENT,
    VECTOR,
    ENCODE_VECTOR,
    API_VERSION,
    MEASURED_COUNT
};

static struct {
    const char *name;
    size_t limit;
    size_t most;
    unsigned long calls;
} table[MEASURED_COUNT] = {
    [READ_SLICE] = {"format3_read_slice, accepted", FORMAT3_STACK_READ_SLICE, 0, 0},
    [READ_SLICE_REFUSED] = {"format3_read_slice, refused with 24, 25 or 26", FORMAT3_STACK_READ_SLICE, 0, 0},
    [READ_SLICE_PARAMETERS] = {"format3_read_slice, refused with 8", FORMAT3_STACK_DEFAULT, 0, 0},
    [RECONSTRUCT] = {"format3_reconstruct, accepted", FORMAT3_STACK_RECONSTRUCT, 0, 0},
    [RECONSTRUCT_REFUSED] = {"format3_reconstruct, refused", FORMAT3_STACK_RECONSTRUCT, 0, 0},
    [RECONSTRUCT_SMALL] = {"format3_reconstruct_small, accepted", FORMAT3_STACK_RECONSTRUCT_SMALL, 0, 0},
    [RECONSTRUCT_SMALL_REFUSED] = {"format3_reconstruct_small, refused", FORMAT3_STACK_RECONSTRUCT_SMALL, 0, 0},
    [RECONSTRUCT_SMALL_LIMIT] = {"format3_reconstruct_small, refused with 27", FORMAT3_STACK_RECONSTRUCT_SMALL, 0, 0},
    [TRANSFORM] = {"format3_transform", FORMAT3_STACK_TRANSFORM, 0, 0},
    [READ_HEADER] = {"format3_read_header", FORMAT3_STACK_DEFAULT, 0, 0},
    [SHOW_RECORD] = {"format3_show_record", FORMAT3_STACK_DEFAULT, 0, 0},
    [INTRA_COEFFICIENT] = {"format3_intra_coefficient", FORMAT3_STACK_DEFAULT, 0, 0},
    [NON_INTRA_COEFFICIENT] = {"format3_non_intra_coefficient", FORMAT3_STACK_DEFAULT, 0, 0},
    [VECTOR] = {"format3_vector", FORMAT3_STACK_DEFAULT, 0, 0},
    [ENCODE_VECTOR] = {"format3_encode_vector", FORMAT3_STACK_DEFAULT, 0, 0},
    [API_VERSION] = {"format3_api_version", FORMAT3_STACK_DEFAULT, 0, 0},
};

static void count(enum measured measured, size_t used)
{
    table[measured].calls++;
    if (used > table[measured].most)
        table[measured].most = used;
}

/* Prints a line for each, and returns whether all were called and stay within their limits. */
static bool report(void)
{
    bool all = true;
    for (int k = 0; k < MEASURED_COUNT; k++) {
        bool called = table[k].calls > 0, within = table[k].most <= table[k].limit;
        printf("stack: %-46s %6zu bytes of %5zu in %7lu calls%s\n",
            table[k].name, table[k].most, table[k].limit, table[k].calls,
            !called ? "  NOT CALLED" : !within ? "  TOO MUCH" : "");
        all = all && called && within;
    }
    return all;
}

/* ---- the painted stack */

enum { STACK_BYTES = 1 << 17, STACK_WORDS = STACK_BYTES / 8, PAGE = 4096 };

static uint64_t *stack;
static ucontext_t tester, callee;

/* The call, and the frame that it is made from. */
static void (*call)(void);
static const uint8_t *frame;

/* Below the stack is a page that faults. */
static void make_stack(void)
{
    uint64_t *pages = mmap(NULL, PAGE + STACK_BYTES, PROT_READ | PROT_WRITE, MAP_PRIVATE | MAP_ANONYMOUS, -1, 0);
    if (pages == MAP_FAILED || mprotect(pages, PAGE, PROT_NONE) != 0)
        fail("memory", "not enough");
    stack = pages + PAGE / 8;
}

static void run_call(void)
{
    call();
}

/* The bytes from the caller's frame down to the lowest 8 bytes that the call changes from this paint. */
static size_t used_over(uint64_t paint)
{
    size_t untouched = 0;
    for (size_t k = 0; k < STACK_WORDS; k++)
        stack[k] = paint;
    if (getcontext(&callee) != 0)
        fail("getcontext", "failed");
    callee.uc_stack.ss_sp = stack;
    callee.uc_stack.ss_size = STACK_BYTES;
    callee.uc_link = &tester;
    makecontext(&callee, run_call, 0);
    if (swapcontext(&tester, &callee) != 0)
        fail("swapcontext", "failed");
    while (stack[untouched] == paint)
        untouched++;
    return (size_t)(frame - (const uint8_t *)(stack + untouched));
}

/* Measures a call with two paints, as what it writes may happen to be the paint. */
static size_t measure(void (*new_call)(void))
{
    call = new_call;
    size_t first = used_over(0xa5a5a5a5a5a5a5a5), second = used_over(0x5a5a5a5a5a5a5a5a);
    return first > second ? first : second;
}

/* ---- the calls, with what they are given */

#define FRAME_HERE() (frame = __builtin_frame_address(0))

static uint32_t number;
static const uint8_t *bytes;
static size_t length;

static struct {
    const uint8_t *forward;
    size_t forward_length;
    const uint8_t *backward;
    size_t backward_length;
    uint8_t *output;
    size_t output_length;
    struct format3_picture_result *result;
} picture;

static void call_reconstruct(void)
{
    FRAME_HERE();
    number = format3_reconstruct(
        bytes, length, picture.forward, picture.forward_length, picture.backward, picture.backward_length,
        picture.output, picture.output_length, picture.result);
}

static void call_reconstruct_small(void)
{
    FRAME_HERE();
    number = format3_reconstruct_small(
        bytes, length, picture.forward, picture.forward_length, picture.backward, picture.backward_length,
        picture.output, picture.output_length, picture.result);
}

static struct {
    const struct format3_picture_parameters *parameters;
    uint8_t *records;
    size_t records_length;
    struct format3_slice_result *result;
} slice;

static void call_read_slice(void)
{
    FRAME_HERE();
    number = format3_read_slice(bytes, length, slice.parameters, slice.records, slice.records_length, slice.result);
}

static struct format3_header header;

static void call_read_header(void)
{
    FRAME_HERE();
    number = format3_read_header(bytes, length, &header);
}

static size_t offset;
static struct format3_record shown;

static void call_show_record(void)
{
    FRAME_HERE();
    number = format3_show_record(bytes, length, offset, &shown);
}

static int16_t coefficients[64], residues[64];
static size_t rows;

static void call_transform(void)
{
    FRAME_HERE();
    number = format3_transform(coefficients, residues, &rows);
}

static int32_t numbers[4];
static int16_t coefficient;
static int32_t component;
static int32_t code;
static uint32_t residual;

static void call_intra_coefficient(void)
{
    FRAME_HERE();
    number = format3_intra_coefficient(numbers[0], numbers[1], numbers[2], &coefficient);
}

static void call_non_intra_coefficient(void)
{
    FRAME_HERE();
    number = format3_non_intra_coefficient(numbers[0], numbers[1], numbers[2], &coefficient);
}

static void call_vector(void)
{
    FRAME_HERE();
    number = format3_vector((uint32_t)numbers[0], numbers[1], numbers[2], (uint32_t)numbers[3], &component);
}

static void call_encode_vector(void)
{
    FRAME_HERE();
    number = format3_encode_vector((uint32_t)numbers[0], numbers[1], numbers[2], &code, &residual);
}

static void call_api_version(void)
{
    FRAME_HERE();
    number = format3_api_version();
}

/* ---- damaged copies */

enum { MAX_BYTES = 1 << 20, DAMAGES = 12 };

static uint8_t damaged[MAX_BYTES];

/* Tries a call on copies of its bytes, at places spread over them: with a bit changed, and cut. */
static void try_damaged(const uint8_t *original, size_t original_length, void (*try_call)(void))
{
    if (original_length > MAX_BYTES)
        fail("a file", "too long");
    memcpy(damaged, original, original_length);
    bytes = damaged;
    for (size_t k = 0; k < DAMAGES && original_length > 0; k++) {
        size_t at = original_length * k / DAMAGES;
        damaged[at] ^= (uint8_t)(1 << k % 8);
        length = original_length;
        try_call();
        damaged[at] = original[at];
        length = at;
        try_call();
    }
}

/* Tries both readers; what is left is what format3_reconstruct gives. */
static void try_reconstruct(void)
{
    size_t used = measure(call_reconstruct_small);
    if (number == FORMAT3_ACCEPTED)
        count(RECONSTRUCT_SMALL, used);
    else
        count(number == FORMAT3_REFUSED_MACROBLOCK_LIMIT ? RECONSTRUCT_SMALL_LIMIT : RECONSTRUCT_SMALL_REFUSED, used);
    used = measure(call_reconstruct);
    count(number == FORMAT3_ACCEPTED ? RECONSTRUCT : RECONSTRUCT_REFUSED, used);
}

static void try_read_slice(void)
{
    size_t used = measure(call_read_slice);
    if (number == FORMAT3_ACCEPTED)
        count(READ_SLICE, used);
    else
        count(number == FORMAT3_REFUSED_HEADER ? READ_SLICE_PARAMETERS : READ_SLICE_REFUSED, used);
}

static void try_read_header(void)
{
    count(READ_HEADER, measure(call_read_header));
}

/* Tries the first offsets, where the header is, and others spread over the file. */
static void try_show_record(void)
{
    for (size_t k = 0; k < 2 * DAMAGES; k++) {
        offset = k < DAMAGES ? k : length * (k - DAMAGES) / DAMAGES;
        count(SHOW_RECORD, measure(call_show_record));
    }
}

/* ---- in the place of the library's functions, for examples/c */

uint32_t measured_reconstruct(
    const uint8_t *file, size_t file_length, const uint8_t *forward, size_t forward_length,
    const uint8_t *backward, size_t backward_length, uint8_t *output, size_t output_length,
    struct format3_picture_result *result);

uint32_t measured_reconstruct(
    const uint8_t *file, size_t file_length, const uint8_t *forward, size_t forward_length,
    const uint8_t *backward, size_t backward_length, uint8_t *output, size_t output_length,
    struct format3_picture_result *result)
{
    picture.forward = forward;
    picture.forward_length = forward_length;
    picture.backward = backward;
    picture.backward_length = backward_length;
    picture.output = output;
    picture.output_length = output_length;
    picture.result = result;
    try_damaged(file, file_length, try_reconstruct);
    bytes = file;
    length = file_length;
    try_reconstruct();
    return number;
}

uint32_t measured_read_slice(
    const uint8_t *given, size_t given_length, const struct format3_picture_parameters *parameters,
    uint8_t *records, size_t records_length, struct format3_slice_result *result);

uint32_t measured_read_slice(
    const uint8_t *given, size_t given_length, const struct format3_picture_parameters *parameters,
    uint8_t *records, size_t records_length, struct format3_slice_result *result)
{
    static const struct format3_picture_parameters none = {0, 0, 0, 0, 0};
    slice.parameters = &none;
    slice.records = records;
    slice.records_length = records_length;
    slice.result = result;
    bytes = given;
    length = given_length;
    try_read_slice();
    slice.parameters = parameters;
    try_damaged(given, given_length, try_read_slice);
    bytes = given;
    length = given_length;
    slice.records_length = 0;
    try_read_slice();
    slice.records_length = records_length;
    try_read_slice();
    return number;
}

uint32_t measured_read_header(const uint8_t *file, size_t file_length, struct format3_header *result);

uint32_t measured_read_header(const uint8_t *file, size_t file_length, struct format3_header *result)
{
    size_t start = file_length < DAMAGES ? file_length : DAMAGES;
    try_damaged(file, start, try_read_header);
    bytes = file;
    length = file_length;
    try_show_record();
    try_read_header();
    *result = header;
    return number;
}

/* ---- files */

static void play_file(struct decoder *decoder, const uint8_t *file, size_t file_length)
{
    struct answer answer = decode(decoder, file, file_length);
    if (answer.number == FORMAT3_ACCEPTED && answer.header.coding_type != FORMAT3_B_PICTURE)
        keep_reference(decoder);
}

/* A reel has a 4-byte big-endian length before each file. */
static void play_reel(struct decoder *decoder, struct bytes reel)
{
    size_t at = 0;
    while (reel.length - at >= 4) {
        const uint8_t *field = reel.data + at;
        size_t file_length = (size_t)field[0] << 24 | (size_t)field[1] << 16 | (size_t)field[2] << 8 | field[3];
        if (reel.length - at - 4 < file_length)
            return;
        play_file(decoder, field + 4, file_length);
        at += 4 + file_length;
    }
}

static void play_stream(struct decoder *decoder, struct bytes video)
{
    static struct file file;
    struct stream stream;
    open_stream(&stream, video.data, video.length);
    while (next_picture(&stream, &file))
        play_file(decoder, file.bytes, file.length);
    if (stream.problem != NULL)
        fail("a stream", stream.problem);
}

static void play(const char *path)
{
    static struct decoder decoder;
    struct bytes file;
    size_t path_length = strlen(path);
    if (!read_file(path, &file))
        exit(2);
    start_decoder(&decoder);
    if (path_length > 5 && strcmp(path + path_length - 5, ".reel") == 0)
        play_reel(&decoder, file);
    else
        play_stream(&decoder, file);
    free(file.data);
}

/* ---- slices */

static uint8_t records[MAX_BYTES];
static uint8_t slice_bytes[MAX_BYTES];

/* Tries a slice of the list: its parameters, the length of the buffer (-1: enough for any), and its bytes as digits. */
static void try_listed(const char *line)
{
    struct format3_picture_parameters parameters;
    struct format3_slice_result result;
    long room;
    int digits;
    size_t count_bytes = 0;
    unsigned byte;
    if (sscanf(line, "%*[^\t]\t%u %u %u %u %u\t%ld\t%n", &parameters.width, &parameters.height, &parameters.coding_type,
            &parameters.forward_f_code, &parameters.backward_f_code, &room, &digits) != 6)
        fail("the list of slices", "cannot be read");
    for (const char *at = line + digits; sscanf(at, "%2x", &byte) == 1 && *at != '\t'; at += 2)
        slice_bytes[count_bytes++] = (uint8_t)byte;
    (void)measured_read_slice(slice_bytes, count_bytes, &parameters, records, room < 0 ? MAX_BYTES : (size_t)room, &result);
}

static void try_list(const char *path)
{
    static char line[MAX_BYTES];
    FILE *file = fopen(path, "r");
    if (file == NULL)
        fail(path, "cannot be read");
    while (fgets(line, sizeof line, file) != NULL)
        if (line[0] != '#')
            try_listed(line);
    fclose(file);
}

static size_t bits_put;

static void put_bits(const char *word)
{
    for (; *word != 0; word++)
        if (*word != ' ') {
            slice_bytes[bits_put / 8] |= (uint8_t)((*word - '0') << (7 - bits_put % 8));
            bits_put++;
        }
}

/* Tries the slice whose records are the longest: each of 396 macroblocks of a B picture has a scale, both vectors with their
 * residuals, and six blocks of 64 coefficients, each by the longest code. */
static void try_longest(void)
{
    struct format3_picture_parameters parameters = {44, 9, FORMAT3_B_PICTURE, 7, 7};
    struct format3_slice_result result;
    memset(slice_bytes, 0, sizeof slice_bytes);
    bits_put = 0;
    put_bits("00000000 00000000 00000001 00000001 01000 0");
    for (int macroblock = 0; macroblock < FORMAT3_MAX_MACROBLOCKS; macroblock++) {
        put_bits("1 00010 01000 010 000000 010 000000 010 000000 010 000000 001100");
        for (int pair = 0; pair < 6 * 64; pair++)
            put_bits(pair % 64 == 63 ? "000001 000000 0000000010000000 10" : "000001 000000 0000000010000000");
    }
    uint32_t answer = measured_read_slice(slice_bytes, (bits_put + 7) / 8, &parameters, records, MAX_BYTES, &result);
    if (answer != FORMAT3_ACCEPTED
        || result.written != FORMAT3_SLICE_RECORD_BYTES
            + (size_t)FORMAT3_MAX_MACROBLOCKS * FORMAT3_MAX_MACROBLOCK_RECORD_BYTES)
        fail("the longest slice", format3_answer_text(answer));
}

/* ---- numbers */

static int32_t random_below(int32_t bound)
{
    static uint32_t state = 1;
    state = 1664525 * state + 1013904223;
    return (int32_t)((state >> 8) % (uint32_t)bound);
}

/* Blocks of all densities, in range and out of it. */
static void try_transforms(void)
{
    for (int k = 0; k < 2000; k++) {
        int32_t size = k % 10 == 0 ? 32768 : 2048;
        for (int j = 0; j < 64; j++)
            coefficients[j] = (int16_t)(random_below(64) < k % 65 ? random_below(2 * size) - size : 0);
        count(TRANSFORM, measure(call_transform));
    }
}

/* Numbers in range and out of it. */
static void try_numbers(void)
{
    for (int k = 0; k < 2000; k++) {
        numbers[0] = random_below(520) - 260;
        numbers[1] = random_below(34) - 1;
        numbers[2] = random_below(260) - 1;
        count(INTRA_COEFFICIENT, measure(call_intra_coefficient));
        count(NON_INTRA_COEFFICIENT, measure(call_non_intra_coefficient));
        numbers[0] = random_below(9);
        numbers[1] = random_below(2100) - 1050;
        numbers[2] = random_below(36) - 18;
        numbers[3] = random_below(66) - 1;
        count(VECTOR, measure(call_vector));
        numbers[2] = random_below(2100) - 1050;
        count(ENCODE_VECTOR, measure(call_encode_vector));
    }
    count(API_VERSION, measure(call_api_version));
}

int main(int argument_count, char **arguments)
{
    if (argument_count < 3)
        fail("usage", "stack SLICES FILE..");
    make_stack();
    try_numbers();
    try_transforms();
    try_longest();
    try_list(arguments[1]);
    for (int k = 2; k < argument_count; k++)
        play(arguments[k]);
    return report() ? 0 : 1;
}
