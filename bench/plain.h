/* Format 3 and raw slices in ordinary C: the library's rules, refusals and exact transform. It is not proved and serves only
 * as a yardstick. */
#ifndef PLAIN_H
#define PLAIN_H

#include <stddef.h>
#include <stdint.h>

#include "format3.h"

/* What format3_reconstruct is. */
typedef uint32_t reconstruct_function(
    const uint8_t *file, size_t file_length,
    const uint8_t *forward, size_t forward_length,
    const uint8_t *backward, size_t backward_length,
    uint8_t *output, size_t output_length,
    struct format3_picture_result *result);

reconstruct_function plain_reconstruct;

/* The same with a second pass over each block, which scales its levels: plain.c, compiled with PLAIN_SECOND_PASS and other
 * public names. */
reconstruct_function second_pass_reconstruct;

/* The same with a second pass that skips zeros: compiled with PLAIN_SKIPS_ZEROS too. */
reconstruct_function skipping_pass_reconstruct;

/* Like format3_read_slice. */
uint32_t plain_read_slice(
    const uint8_t *slice, size_t slice_length,
    const struct format3_picture_parameters *parameters,
    uint8_t *records, size_t records_length,
    struct format3_slice_result *result);

/* Like format3_transform, for coefficients in range. It works every row, and answers how many are not all 0. */
int plain_transform(const int16_t coefficients[64], int16_t residues[64]);

/* What a coded block gives the transform to work: nothing, if all its levels are scaled to 0; its first coefficient alone; or
 * 1 row and, after it, 2 to 8 rows. */
enum { WORK_NOTHING, WORK_DC_ALONE, WORK_ROWS, WORKS = WORK_ROWS + 8 };

/* What has been done since the counts were last cleared, if compiled with PLAIN_CENSUS: codes of slices, pairs, and 8 x 8
 * blocks; those transformed also by their work. */
struct plain_census {
    unsigned long codes;
    unsigned long pairs;
    unsigned long transforms;
    unsigned long works[WORKS];
    unsigned long whole_pel_fetches;
    unsigned long half_pel_fetches;
    unsigned long means_of_both;
    unsigned long stores;
};

extern struct plain_census plain_census;

#endif
