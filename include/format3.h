/* MPEG-1 pictures: from the slices of a video stream to macroblock symbols (Format 3), and from these to pels.
 *
 * For C99 or C++11 and later. Link with -lformat3: libformat3.a or libformat3.so, both for x86-64 Linux. Every function that
 * is declared below is proved: for all bytes, numbers and lengths it returns, does nothing undefined, and gives the results
 * stated here. `crates/format3_c` states them as equations with definitions; that the definitions follow the standard and
 * document 01 is a matter of reading and testing. (format3_answer_text is plain C, not proved.)
 *
 * What C cannot check, the caller must ensure:
 *   - A pointer and the length after it describe one buffer, all of which may be read (and written, unless const).
 *     If the length is 0, the pointer is never used and may be null.
 *   - Every other pointer is aligned, not null, and points to an object of its type, or to an array of 64 where it says so.
 *   - Nothing written through one pointer overlaps what another pointer of the same call points to. So the output may not
 *     overlap a reference or the file, the residues not the coefficients (no transform in place), and the records not the
 *     slice. Buffers that are only read may overlap: both references may be the same picture.
 *   - Nobody else writes to the buffers during the call, or reads what the call writes.
 *   - There is enough stack for the call (`enum format3_stack`).
 * The library allocates nothing and keeps nothing between calls, so several threads may call it at once.
 *
 * Every proved function except format3_api_version returns a number of `enum format3_answer`. Whatever it returns, it sets
 * every field of the result struct, or every number, that it has a pointer to. Which bytes of `output` and `records` it
 * writes is stated below. */
#ifndef FORMAT3_H
#define FORMAT3_H

#include <stddef.h>
#include <stdint.h>

#ifdef __cplusplus
extern "C" {
#endif

/* What a compiler can check of these rules. FORMAT3_AT_LEAST and FORMAT3_ARRAY_RESTRICT are for array parameters, and empty
 * in C++, which has neither. */
#if defined(__GNUC__)
#define FORMAT3_USE_RESULT __attribute__((warn_unused_result))
#define FORMAT3_NOT_NULL(...) __attribute__((nonnull(__VA_ARGS__)))
#else
#define FORMAT3_USE_RESULT
#define FORMAT3_NOT_NULL(...)
#endif
#if !defined(__cplusplus) && defined(__STDC_VERSION__) && __STDC_VERSION__ >= 199901L
#define FORMAT3_RESTRICT restrict
#define FORMAT3_AT_LEAST static
#define FORMAT3_ARRAY_RESTRICT restrict
#else
#if defined(__GNUC__)
#define FORMAT3_RESTRICT __restrict__
#else
#define FORMAT3_RESTRICT
#endif
#define FORMAT3_AT_LEAST
#define FORMAT3_ARRAY_RESTRICT
#endif

/* The version of this interface, also of the shared library's name (libformat3.so.2). It increases when a function or a struct
 * changes or goes. A new function, a new answer or another name for an answer does not change it, so expect answers that are not
 * listed below.
 * format3_api_version returns the version that the library was built with: compare the two before the first call. */
#define FORMAT3_API_VERSION 2

FORMAT3_USE_RESULT
uint32_t format3_api_version(void);

/* The answers. Made from answers.tsv, like format3_answer_text. */
enum format3_answer {
    FORMAT3_ACCEPTED = 0,
    FORMAT3_REFUSED_FILE_EMPTY = 1,
    FORMAT3_REFUSED_VERSION = 2,
    FORMAT3_REFUSED_RECORD_CUT = 3,
    FORMAT3_REFUSED_RECORD_KIND = 4,
    FORMAT3_REFUSED_OUT_OF_TURN = 5,
    FORMAT3_REFUSED_BODY_LENGTH = 6,
    FORMAT3_REFUSED_FILE_ENDS = 7,
    FORMAT3_REFUSED_HEADER = 8,
    FORMAT3_REFUSED_MATRIX = 9,
    FORMAT3_REFUSED_QUANTIZER_SCALE = 10,
    FORMAT3_REFUSED_SLICE_START = 11,
    FORMAT3_REFUSED_MACROBLOCK_TYPE = 12,
    FORMAT3_REFUSED_ADDRESS_INCREMENT = 13,
    FORMAT3_REFUSED_VECTOR_CODE = 14,
    FORMAT3_REFUSED_PATTERN = 15,
    FORMAT3_REFUSED_COEFFICIENT = 16,
    FORMAT3_REFUSED_DC_COEFFICIENT = 17,
    FORMAT3_REFUSED_FORWARD_VECTOR_OUTSIDE = 18,
    FORMAT3_REFUSED_OUTPUT_LENGTH = 19,
    FORMAT3_REFUSED_FORWARD_LENGTH = 20,
    FORMAT3_REFUSED_BACKWARD_LENGTH = 21,
    FORMAT3_REFUSED_NUMBER_OUT_OF_RANGE = 22,
    FORMAT3_REFUSED_BACKWARD_VECTOR_OUTSIDE = 23,
    FORMAT3_REFUSED_SLICE_CODE = 24,
    FORMAT3_REFUSED_SLICE_CUT = 25,
    FORMAT3_REFUSED_RECORDS_LENGTH = 26,
    FORMAT3_REFUSED_MACROBLOCK_LIMIT = 27,
    FORMAT3_REFUSED_VECTOR_UNREACHABLE = 33
};

/* What an answer means, in English. */
static inline const char *format3_answer_text(uint32_t answer)
{
    switch (answer) {
    case FORMAT3_ACCEPTED:
        return "accepted";
    case FORMAT3_REFUSED_FILE_EMPTY:
        return "the file is empty";
    case FORMAT3_REFUSED_VERSION:
        return "the file's version is not 3";
    case FORMAT3_REFUSED_RECORD_CUT:
        return "a record is cut: fewer than 3 bytes are left, its length is 0, or it goes past the end of the file";
    case FORMAT3_REFUSED_RECORD_KIND:
        return "a record's kind is not 1 to 4";
    case FORMAT3_REFUSED_OUT_OF_TURN:
        return "a record is out of turn";
    case FORMAT3_REFUSED_BODY_LENGTH:
        return "a record's body is too short or too long for its fields";
    case FORMAT3_REFUSED_FILE_ENDS:
        return "the file ends before its header or before its last macroblock";
    case FORMAT3_REFUSED_HEADER:
        return "a number in the header, or one given with a raw slice, is out of range";
    case FORMAT3_REFUSED_MATRIX:
        return "a quantizer matrix is neither 0 nor 1, is given twice, or has a wrong weight";
    case FORMAT3_REFUSED_QUANTIZER_SCALE:
        return "a quantizer scale is not 1 to 31";
    case FORMAT3_REFUSED_SLICE_START:
        return "a slice does not start at the next address";
    case FORMAT3_REFUSED_MACROBLOCK_TYPE:
        return "a macroblock type is not allowed in a picture of this type";
    case FORMAT3_REFUSED_ADDRESS_INCREMENT:
        return "an address increment is 0, is not 1 at a slice's start, goes past the last macroblock, or skips where that is not allowed";
    case FORMAT3_REFUSED_VECTOR_CODE:
        return "a motion code or its residual is out of range";
    case FORMAT3_REFUSED_PATTERN:
        return "a coded block pattern is not 1 to 63";
    case FORMAT3_REFUSED_COEFFICIENT:
        return "a block's count of pairs, a level or a position is out of range";
    case FORMAT3_REFUSED_DC_COEFFICIENT:
        return "a DC difference or a DC coefficient is out of range";
    case FORMAT3_REFUSED_FORWARD_VECTOR_OUTSIDE:
        return "a forward vector points outside the forward reference";
    case FORMAT3_REFUSED_OUTPUT_LENGTH:
        return "the output's length is not 384 bytes per macroblock";
    case FORMAT3_REFUSED_FORWARD_LENGTH:
        return "the forward reference's length is wrong";
    case FORMAT3_REFUSED_BACKWARD_LENGTH:
        return "the backward reference's length is wrong";
    case FORMAT3_REFUSED_NUMBER_OUT_OF_RANGE:
        return "a number given to the transform, coefficient or vector function is out of range";
    case FORMAT3_REFUSED_BACKWARD_VECTOR_OUTSIDE:
        return "a backward vector points outside the backward reference";
    case FORMAT3_REFUSED_SLICE_CODE:
        return "a raw slice has bits that begin no code, a row outside the picture, or a code that goes too far";
    case FORMAT3_REFUSED_SLICE_CUT:
        return "a raw slice ends before its first macroblock is complete, or within a later one";
    case FORMAT3_REFUSED_RECORDS_LENGTH:
        return "the records of a raw slice don't fit the buffer";
    case FORMAT3_REFUSED_MACROBLOCK_LIMIT:
        return "the picture has more macroblocks than the reader's limit";
    case FORMAT3_REFUSED_VECTOR_UNREACHABLE:
        return "no motion code and residual reach the wanted vector, or the past or the f_code given with it is out of range";
    default:
        return "an answer that this header does not know";
    }
}
/* The end of what is made from answers.tsv. */

/* Limits and sizes. A picture is at most FORMAT3_MAX_WIDTH macroblocks wide, FORMAT3_MAX_HEIGHT high and
 * FORMAT3_MAX_MACROBLOCKS in all, and has FORMAT3_MACROBLOCK_BYTES per macroblock. format3_reconstruct_small takes at most
 * FORMAT3_MAX_MACROBLOCKS_SMALL in all; every other function keeps to FORMAT3_MAX_MACROBLOCKS.
 * The records that format3_read_slice writes for a slice of M coded macroblocks have at most
 * FORMAT3_SLICE_RECORD_BYTES + M x FORMAT3_MAX_MACROBLOCK_RECORD_BYTES bytes. A damaged slice may have more macroblocks than
 * its picture; the readers refuse every file with such a slice, so room for the macroblocks of the picture is enough.
 * (This last sentence is read off the rules, not proved.) */
enum format3_limit {
    FORMAT3_MAX_WIDTH = 48,
    FORMAT3_MAX_HEIGHT = 36,
    FORMAT3_MAX_MACROBLOCKS = 396,
    FORMAT3_MAX_MACROBLOCKS_SMALL = 99,
    FORMAT3_MACROBLOCK_BYTES = 384,
    FORMAT3_SLICE_RECORD_BYTES = 6,
    FORMAT3_MAX_MACROBLOCK_RECORD_BYTES = 1174
};

/* The most stack that a call takes, in bytes, with its return address and its arguments. It is not proved, but measured, and
 * worked out from the machine code (tests/stack.sh). A frame of more than 4096 bytes touches each page as it grows, so a
 * call that runs out of stack faults on the guard page below it and damages nothing.
 * What the two readers of pictures take depends neither on their limits nor on the size of the picture.
 * format3_read_slice takes at most FORMAT3_STACK_DEFAULT if it refuses its parameters (8).
 * What a dynamic linker needs to look up a function at its first call is not included: link with -z now, or statically. */
enum format3_stack {
    FORMAT3_STACK_READ_SLICE = 20480,
    FORMAT3_STACK_RECONSTRUCT = 4096,
    FORMAT3_STACK_RECONSTRUCT_SMALL = 4096,
    FORMAT3_STACK_TRANSFORM = 2048,
    FORMAT3_STACK_DEFAULT = 1024 /* every other function */
};

/* The coding types of pictures. */
enum format3_coding_type {
    FORMAT3_I_PICTURE = 1,
    FORMAT3_P_PICTURE = 2,
    FORMAT3_B_PICTURE = 3
};

/* The kinds of records. */
enum format3_kind {
    FORMAT3_KIND_HEADER = 1,
    FORMAT3_KIND_MATRIX = 2,
    FORMAT3_KIND_SLICE = 3,
    FORMAT3_KIND_MACROBLOCK = 4
};

/* What a file's header says: a number of `enum format3_coding_type`; width and height in macroblocks, within
 * `enum format3_limit`; and the offset in the file where the record after the header starts. */
struct format3_header {
    uint32_t coding_type;
    uint32_t width;
    uint32_t height;
    size_t records_start;
};

/* Reads a file's header, for example to know which references and how much output to lend.
 *
 * Returns 0 to 8. If it refuses a file, all fields are 0, and format3_reconstruct and format3_reconstruct_small give the same
 * answer, whatever their buffers. If it accepts one, these can refuse it only for the lengths of their buffers or for what
 * comes after the header, and format3_reconstruct_small also for its limit (27). */
FORMAT3_USE_RESULT FORMAT3_NOT_NULL(3)
uint32_t format3_read_header(const uint8_t *file, size_t file_length, struct format3_header *FORMAT3_RESTRICT header);

/* A record of a file: its kind, and where in the file its body starts and how long it is. */
struct format3_record {
    uint8_t kind;
    size_t start;
    size_t length;
};

/* Finds the record at an offset of a file. The first record is at offset 1, the next one at `start` + `length`.
 *
 * Returns 0, 3 (also for an offset at or past the file's end) or 4. If refused, all fields are 0. */
FORMAT3_USE_RESULT FORMAT3_NOT_NULL(4)
uint32_t format3_show_record(
    const uint8_t *file, size_t file_length, size_t offset, struct format3_record *FORMAT3_RESTRICT shown);

/* Where reconstruction ended, as an offset in the file; how many macroblocks are in the output; and how many rows of
 * coefficients the transform worked for these. In each coded block it works those of the eight rows that are not all zero, so
 * at most 48 a macroblock. `rows` is 0 if the header is not accepted. */
struct format3_picture_result {
    size_t place;
    size_t made;
    size_t rows;
};

/* Reconstructs the picture of a Format 3 file into `output`.
 *
 * The output is the Y plane (16 x 16 pels per macroblock), then the Cb plane, then the Cr plane (8 x 8 per macroblock),
 * each row by row. A reference is a picture with the same number of macroblocks. P pictures use the forward reference, B
 * pictures both; an unused reference has length 0.
 *
 * Returns 0 to 21 or 23.
 * Accepted (0): the output is the picture that clause 2.4.4 of ISO/IEC 11172-2 defines for the file's symbols and matrices
 * and these references, with the inverse transform of `format3_transform`. `place` is the file's length, `made` is the
 * picture's count of macroblocks, and `rows` is the total over all of them.
 * Refused: `place` is the offset of the refused record's length field (0 for 1 and 2, the file's length for 7). `made` is
 * the count of macroblocks that the records before it gave. These, at addresses 0 to `made` - 1, are in the output,
 * reconstructed by the same rules; every other byte of the output is as it was before the call. `rows` is the total over
 * these: the refused record adds nothing. */
FORMAT3_USE_RESULT FORMAT3_NOT_NULL(9)
uint32_t format3_reconstruct(
    const uint8_t *file, size_t file_length,
    const uint8_t *forward, size_t forward_length,
    const uint8_t *backward, size_t backward_length,
    uint8_t *FORMAT3_RESTRICT output, size_t output_length,
    struct format3_picture_result *FORMAT3_RESTRICT result);

/* The same reader with a smaller limit, for a device that has memory only for pictures of FORMAT3_MAX_MACROBLOCKS_SMALL
 * macroblocks. The output and each reference never need more than FORMAT3_MAX_MACROBLOCKS_SMALL x FORMAT3_MACROBLOCK_BYTES
 * bytes, which is 38016.
 *
 * Returns 0 to 21, 23 or 27.
 *   27  format3_read_header accepts the file's header, but the picture has more than FORMAT3_MAX_MACROBLOCKS_SMALL
 *       macroblocks. This is tested before the lengths of the buffers (19, 20 and 21), so it is the answer whatever was lent.
 *       `place` is 1, `made` and `rows` are 0, and every byte of the output is as it was before the call.
 * For every other file it gives the same answer, the same result and the same bytes as format3_reconstruct. */
FORMAT3_USE_RESULT FORMAT3_NOT_NULL(9)
uint32_t format3_reconstruct_small(
    const uint8_t *file, size_t file_length,
    const uint8_t *forward, size_t forward_length,
    const uint8_t *backward, size_t backward_length,
    uint8_t *FORMAT3_RESTRICT output, size_t output_length,
    struct format3_picture_result *FORMAT3_RESTRICT result);

/* The numbers of a picture's header that its slices are read with: width and height in macroblocks (at least 1, and within
 * `enum format3_limit`), a number of `enum format3_coding_type`, and the f_codes. An f_code is 1..7 if pictures of that type
 * use its direction (P forward, B both), else 0. */
struct format3_picture_parameters {
    uint32_t width;
    uint32_t height;
    uint32_t coding_type;
    uint32_t forward_f_code;
    uint32_t backward_f_code;
};

/* How many bytes of records were written, and a position in the slice: a byte, and a bit in it; bit 0 is the most
 * significant. */
struct format3_slice_result {
    size_t written;
    size_t byte;
    size_t bit;
};

/* Turns the bytes of one slice of an MPEG-1 video stream, from its start code 00 00 01 on, into Format 3 records by the
 * tables of Annex B of ISO/IEC 11172-2: one slice record, then a record for each coded macroblock, one after another from
 * the start of `records`. A version byte, a header of the same numbers, the matrices, and then the records of all slices
 * of a picture make a file for `format3_reconstruct` or `format3_reconstruct_small`.
 *
 * A slice is its start code, with its row counted from 1; the quantizer scale; extra information; and macroblocks until
 * only zero bits are left, or none. Stuffing and extra information are dropped. Escapes are added to the address
 * increment. The first increment goes into the slice record's start address, (row - 1) x width + increment - 1, and the
 * first macroblock's record carries 1. Values that the tables can carry but a reader of pictures refuses are written as
 * read: a scale of 0, an address past the picture, a skip in an I picture, a DC out of range, a vector that does not fit.
 *
 * The start code counts as one code, as do a coefficient with its sign and an escape with its run and level; otherwise
 * each syntax element is a code. `byte` and `bit` say where a code starts.
 *
 * Returns 0, 8, 24, 25 or 26.
 * Accepted (0): the records are the first `written` bytes of `records`, and the bytes after them are as they were before
 * the call. `byte` and `bit` say where the unread rest starts: at the slice's length and 0 if nothing is left.
 * Refused: `written` is 0, and every byte of `records` is as it was before the call.
 *    8  A number of `parameters` is out of range. This is tested before anything is read; `byte` and `bit` are 0.
 *   24  From `byte` and `bit` on, the bits begin no code that is allowed there, whatever would follow them; or the start
 *       code's row is not in the picture; or a whole code there takes an address increment past 396, or a coefficient past
 *       position 63. After an increment's escape, stuffing is no code. After a coefficient's escape, neither a level of 0
 *       or -256 nor a level of -127..127 in 16 bits is a code. Nor is the start code that follows the slice in the stream:
 *       leave it out of `slice`.
 *   25  From `byte` and `bit` on, the bits end within a code, or none are left, before the first macroblock is complete or
 *       within a later one.
 *   26  The slice would be accepted, but its records are longer than `records_length`; `byte` and `bit` are 0. */
FORMAT3_USE_RESULT FORMAT3_NOT_NULL(3, 6)
uint32_t format3_read_slice(
    const uint8_t *slice, size_t slice_length,
    const struct format3_picture_parameters *parameters,
    uint8_t *FORMAT3_RESTRICT records, size_t records_length,
    struct format3_slice_result *FORMAT3_RESTRICT result);

/* The inverse transform: 64 coefficients to 64 residues, both row by row; a row is a vertical frequency.
 * Accepted: each residue is the exact sum, over all 64 coefficients, of horizontal factor x vertical factor x coefficient
 * (factors from the table in document 01, "Inverse transform"), plus 2^41, divided by 2^42 rounding down, limited to
 * -256..255. Before it is limited, it is within 9/16 of the exact cosine sum, for any seven fractions between the ends
 * around the cosines (docs/COSINES.md).
 * The transform skips each row of eight zero coefficients; `*rows` is how many rows it works, 0..8.
 * Returns 22 if a coefficient is outside -2048..2047; the residues are then zeros, and `*rows` is 0. */
FORMAT3_USE_RESULT FORMAT3_NOT_NULL(1, 2, 3)
uint32_t format3_transform(
    const int16_t coefficients[FORMAT3_AT_LEAST 64], int16_t residues[FORMAT3_AT_LEAST FORMAT3_ARRAY_RESTRICT 64],
    size_t *FORMAT3_RESTRICT rows);

/* Dequantizes a level: intra AC, and non-intra.
 * Accepted: the intra coefficient is 2 x level x scale x weight / 16, the non-intra one
 * (2 x level + sign) x scale x weight / 16, where the sign is that of the level: -1, 0 or 1. Division rounds towards
 * zero. Then an even result moves one towards zero (0 stays 0), and the result is limited to -2048..2047. Level 0 gives 0.
 * Returns 22 if the level is outside -255..255, the scale outside 1..31 or the weight outside 1..255; the coefficient is
 * then 0. */
FORMAT3_USE_RESULT FORMAT3_NOT_NULL(4)
uint32_t format3_intra_coefficient(int32_t level, int32_t scale, int32_t weight, int16_t *coefficient);
FORMAT3_USE_RESULT FORMAT3_NOT_NULL(4)
uint32_t format3_non_intra_coefficient(int32_t level, int32_t scale, int32_t weight, int16_t *coefficient);

/* Decodes one component of a motion vector. `past` is the predictor: the previous value of this component. The result is
 * the next predictor, before the full-pel flag doubles it.
 * Accepted: with f = 2^(f_code - 1), the difference is 0 for code 0, else (|code| - 1) x f + residual + 1 with the code's
 * sign. It is added to the past; a sum outside -16f..16f-1 moves by 32f back inside (document 01, "Vectors and
 * prediction").
 * Returns 22 if the f_code is outside 1..7, the past outside -16f..16f-1 or the code outside -16..16, or if the residual
 * is f or more, or is not 0 with code 0; the vector is then 0. */
FORMAT3_USE_RESULT FORMAT3_NOT_NULL(5)
uint32_t format3_vector(uint32_t f_code, int32_t past, int32_t code, uint32_t residual, int32_t *vector);

/* Encodes one component of a motion vector: finds the code and the residual from which format3_vector decodes the wanted
 * vector. `past` is the predictor and `wanted` the next one, as there: neither is doubled by the full-pel flag.
 * Accepted: format3_vector accepts this code and residual with the same f_code and past, and its result is the wanted vector.
 * Every wanted vector in -16f..16f-1, with f = 2^(f_code - 1), is reached from every past in that range. No other code and
 * residual reach it, except where wanted vector and past differ by 16f: there both 16 and -16 do, with residual f - 1, and
 * the code is the positive one.
 * Returns 33 if the f_code is outside 1..7, or the past or the wanted vector outside -16f..16f-1; the code and the residual
 * are then 0. */
FORMAT3_USE_RESULT FORMAT3_NOT_NULL(4, 5)
uint32_t format3_encode_vector(
    uint32_t f_code, int32_t past, int32_t wanted, int32_t *FORMAT3_RESTRICT code, uint32_t *FORMAT3_RESTRICT residual);

#ifdef __cplusplus
}
#endif

#endif
