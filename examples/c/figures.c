/* figures: calls every function, and checks the results against figures of document 01 and request No. 12, and the first picture of
 * document 01's sample reel, also as a slice. Prints each result that is wrong, and fails if there is one. */
#include <stdint.h>
#include <stdio.h>
#include <string.h>

#include "format3.h"

static int failures;

static void expect(const char *what, long expected, long found)
{
    if (expected == found)
        return;
    printf("%s: expected %ld, found %ld\n", what, expected, found);
    failures++;
}

/* An answer is told by its number and in words. */
static void expect_answer(const char *what, uint32_t expected, uint32_t found)
{
    if (expected == found)
        return;
    printf("%s: expected %u (%s), found %u (%s)\n",
        what, expected, format3_answer_text(expected), found, format3_answer_text(found));
    failures++;
}

static void intra(int32_t level, int32_t scale, int32_t weight, uint32_t number, long expected)
{
    int16_t coefficient = -1;
    expect_answer("intra answer", number, format3_intra_coefficient(level, scale, weight, &coefficient));
    expect("intra coefficient", expected, coefficient);
}

static void non_intra(int32_t level, int32_t scale, int32_t weight, uint32_t number, long expected)
{
    int16_t coefficient = -1;
    expect_answer("non-intra answer", number, format3_non_intra_coefficient(level, scale, weight, &coefficient));
    expect("non-intra coefficient", expected, coefficient);
}

static void coefficients(void)
{
    intra(1, 1, 16, FORMAT3_ACCEPTED, 1);
    intra(1, 1, 1, FORMAT3_ACCEPTED, 0);
    intra(-255, 31, 83, FORMAT3_ACCEPTED, -2048);
    intra(256, 1, 16, FORMAT3_REFUSED_NUMBER_OUT_OF_RANGE, 0);
    non_intra(1, 1, 16, FORMAT3_ACCEPTED, 3);
    non_intra(-1, 2, 16, FORMAT3_ACCEPTED, -5);
    non_intra(1, 32, 16, FORMAT3_REFUSED_NUMBER_OUT_OF_RANGE, 0);
}

static void vector(uint32_t f_code, int32_t past, int32_t code, uint32_t residual, uint32_t number, long expected)
{
    int32_t found = -1;
    expect_answer("vector answer", number, format3_vector(f_code, past, code, residual, &found));
    expect("vector", expected, found);
}

static void vectors(void)
{
    vector(1, 15, 1, 0, FORMAT3_ACCEPTED, -16);
    vector(2, 0, 1, 0, FORMAT3_ACCEPTED, 1);
    vector(2, 0, -1, 0, FORMAT3_ACCEPTED, -1);
    vector(8, 0, 1, 0, FORMAT3_REFUSED_NUMBER_OUT_OF_RANGE, 0);
}

static void encoded_vector(
    uint32_t f_code, int32_t past, int32_t wanted, uint32_t number, long expected_code, long expected_residual)
{
    int32_t code = 99;
    uint32_t residual = 99;
    expect_answer("encoded vector answer", number, format3_encode_vector(f_code, past, wanted, &code, &residual));
    expect("code", expected_code, code);
    expect("residual", expected_residual, residual);
}

/* The same figures the other way round; a vector that codes 16 and -16 reach, and one that no code reaches. */
static void encoded_vectors(void)
{
    encoded_vector(1, 15, -16, FORMAT3_ACCEPTED, 1, 0);
    encoded_vector(2, 0, 1, FORMAT3_ACCEPTED, 1, 0);
    encoded_vector(2, 0, -1, FORMAT3_ACCEPTED, -1, 0);
    encoded_vector(2, 0, -32, FORMAT3_ACCEPTED, 16, 1);
    encoded_vector(1, 0, 16, FORMAT3_REFUSED_VECTOR_UNREACHABLE, 0, 0);
}

/* A DC coefficient alone gives the same number 64 times, from one row unless it is 0. */
static void transformed(int16_t dc, uint32_t number, long expected, long expected_rows)
{
    int16_t coefficients[64] = {0}, residues[64] = {0};
    size_t rows = 9;
    coefficients[0] = dc;
    residues[63] = -1;
    expect_answer("transform answer", number, format3_transform(coefficients, residues, &rows));
    for (int k = 0; k < 64; k++)
        expect("residue", expected, residues[k]);
    expect("rows of a block", expected_rows, (long)rows);
}

static void transforms(void)
{
    transformed(8, FORMAT3_ACCEPTED, 1, 1);
    transformed(4, FORMAT3_ACCEPTED, 0, 1);
    transformed(2040, FORMAT3_ACCEPTED, 255, 1);
    transformed(0, FORMAT3_ACCEPTED, 0, 0);
    transformed(2048, FORMAT3_REFUSED_NUMBER_OUT_OF_RANGE, 0, 0);
}

/* The first file of document 01's reel: a grey picture of one macroblock. */
static const uint8_t GREY[41] = {3, 0, 8, 1, 1, 1, 1, 0, 0, 0, 0, 0, 4, 3, 8, 0, 0, 0, 22, 4, 16, 0, 1};

/* Each of its six blocks has a row: that of its DC. */
enum { GREY_ROWS = 6 };

static void header(size_t file_length, uint32_t number, long type, long size, long expected_start)
{
    struct format3_header found = {9, 9, 9, 9};
    expect_answer("header answer", number, format3_read_header(GREY, file_length, &found));
    expect("coding type", type, (long)found.coding_type);
    expect("width", size, (long)found.width);
    expect("height", size, (long)found.height);
    expect("records start", expected_start, (long)found.records_start);
}

static void headers(void)
{
    header(sizeof GREY, FORMAT3_ACCEPTED, FORMAT3_I_PICTURE, 1, 11);
    header(11, FORMAT3_ACCEPTED, FORMAT3_I_PICTURE, 1, 11);
    header(10, FORMAT3_REFUSED_RECORD_CUT, 0, 0, 0);
    header(1, FORMAT3_REFUSED_FILE_ENDS, 0, 0, 0);
    header(0, FORMAT3_REFUSED_FILE_EMPTY, 0, 0, 0);
}

static void shown(
    size_t file_length, size_t offset, uint32_t number, long expected_kind, long expected_start, long expected_length)
{
    struct format3_record record = {9, 9, 9};
    expect_answer("record answer", number, format3_show_record(GREY, file_length, offset, &record));
    expect("record kind", expected_kind, (long)record.kind);
    expect("record start", expected_start, (long)record.start);
    expect("record length", expected_length, (long)record.length);
}

static void records(void)
{
    shown(sizeof GREY, 1, FORMAT3_ACCEPTED, FORMAT3_KIND_HEADER, 4, 7);
    shown(sizeof GREY, 11, FORMAT3_ACCEPTED, FORMAT3_KIND_SLICE, 14, 3);
    shown(sizeof GREY, 17, FORMAT3_ACCEPTED, FORMAT3_KIND_MACROBLOCK, 20, 21);
    shown(sizeof GREY - 1, 17, FORMAT3_REFUSED_RECORD_CUT, 0, 0, 0);
    shown(sizeof GREY, 0, FORMAT3_REFUSED_RECORD_CUT, 0, 0, 0);
    shown(sizeof GREY, 4, FORMAT3_REFUSED_RECORD_CUT, 0, 0, 0);
    shown(0, 0, FORMAT3_REFUSED_RECORD_CUT, 0, 0, 0);
}

/* What format3_reconstruct and format3_reconstruct_small are. */
typedef uint32_t reader(
    const uint8_t *file, size_t file_length, const uint8_t *forward, size_t forward_length,
    const uint8_t *backward, size_t backward_length, uint8_t *FORMAT3_RESTRICT output, size_t output_length,
    struct format3_picture_result *FORMAT3_RESTRICT result);

static void picture(
    reader *reconstruct, const uint8_t *file, size_t file_length, size_t output_length, uint32_t number,
    long expected_place, long expected_made)
{
    uint8_t output[FORMAT3_MACROBLOCK_BYTES];
    struct format3_picture_result result = {9, 9, 9};
    memset(output, 7, sizeof output);
    expect_answer("picture answer", number,
        reconstruct(file, file_length, NULL, 0, NULL, 0, output, output_length, &result));
    expect("place", expected_place, (long)result.place);
    expect("made", expected_made, (long)result.made);
    expect("rows", GREY_ROWS * expected_made, (long)result.rows);
    for (size_t k = 0; k < sizeof output; k++)
        expect("pel", expected_made == 1 ? 128 : 7, output[k]);
}

/* The same by both readers. */
static void grey_picture(size_t file_length, size_t output_length, uint32_t number, long expected_place, long expected_made)
{
    picture(format3_reconstruct, GREY, file_length, output_length, number, expected_place, expected_made);
    picture(format3_reconstruct_small, GREY, file_length, output_length, number, expected_place, expected_made);
}

/* The header of an I picture, 10 macroblocks wide and 10 high: one more than the small reader takes. */
static const uint8_t LARGE[11] = {3, 0, 8, 1, 10, 10, 1, 0, 0, 0, 0};

static void pictures(void)
{
    grey_picture(sizeof GREY, 384, FORMAT3_ACCEPTED, 41, 1);
    grey_picture(sizeof GREY, 383, FORMAT3_REFUSED_OUTPUT_LENGTH, 1, 0);
    grey_picture(sizeof GREY - 1, 384, FORMAT3_REFUSED_RECORD_CUT, 17, 0);
    grey_picture(17, 384, FORMAT3_REFUSED_FILE_ENDS, 17, 0);
    grey_picture(0, 384, FORMAT3_REFUSED_FILE_EMPTY, 0, 0);
    picture(format3_reconstruct, LARGE, sizeof LARGE, 384, FORMAT3_REFUSED_OUTPUT_LENGTH, 1, 0);
    picture(format3_reconstruct_small, LARGE, sizeof LARGE, 384, FORMAT3_REFUSED_MACROBLOCK_LIMIT, 1, 0);
}

/* The grey picture as one slice: scale 8, an intra macroblock, no coefficients. */
static const uint8_t GREY_SLICE[9] = {0, 0, 1, 1, 0x43, 0x94, 0xa5, 0x22, 0x20};

/* Where its records are in the file. */
enum { GREY_RECORDS = 11, GREY_RECORDS_LENGTH = 30 };

static void slice(
    size_t slice_length, uint32_t type, size_t records_length, uint32_t number, long expected_written, long expected_byte,
    long expected_bit)
{
    uint8_t records[GREY_RECORDS_LENGTH + 1];
    struct format3_picture_parameters parameters = {.width = 1, .height = 1, .coding_type = type};
    struct format3_slice_result result = {99, 99, 99};
    memset(records, 7, sizeof records);
    expect_answer("slice answer", number,
        format3_read_slice(GREY_SLICE, slice_length, &parameters, records, records_length, &result));
    expect("written", expected_written, (long)result.written);
    expect("byte", expected_byte, (long)result.byte);
    expect("bit", expected_bit, (long)result.bit);
    for (size_t k = 0; k < sizeof records; k++)
        expect("record byte", (long)k < expected_written ? GREY[GREY_RECORDS + k] : 7, records[k]);
}

static void slices(void)
{
    slice(sizeof GREY_SLICE, FORMAT3_I_PICTURE, GREY_RECORDS_LENGTH + 1, FORMAT3_ACCEPTED, GREY_RECORDS_LENGTH, 8, 4);
    slice(sizeof GREY_SLICE, FORMAT3_I_PICTURE, GREY_RECORDS_LENGTH, FORMAT3_ACCEPTED, GREY_RECORDS_LENGTH, 8, 4);
    slice(sizeof GREY_SLICE, FORMAT3_I_PICTURE, GREY_RECORDS_LENGTH - 1, FORMAT3_REFUSED_RECORDS_LENGTH, 0, 0, 0);
    slice(sizeof GREY_SLICE, 4, GREY_RECORDS_LENGTH, FORMAT3_REFUSED_HEADER, 0, 0, 0);
    slice(sizeof GREY_SLICE, FORMAT3_P_PICTURE, GREY_RECORDS_LENGTH, FORMAT3_REFUSED_HEADER, 0, 0, 0);
    slice(8, FORMAT3_I_PICTURE, 0, FORMAT3_REFUSED_SLICE_CUT, 0, 8, 0);
    slice(0, FORMAT3_I_PICTURE, 0, FORMAT3_REFUSED_SLICE_CUT, 0, 0, 0);
}

int main(void)
{
    expect("version", FORMAT3_API_VERSION, format3_api_version());
    if (failures > 0)
        return 1;
    coefficients();
    vectors();
    encoded_vectors();
    transforms();
    headers();
    records();
    pictures();
    slices();
    return failures == 0 ? 0 : 1;
}
