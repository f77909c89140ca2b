/* Pictures to decode, each with its references, so that it can be decoded alone and as often as needed. */
#ifndef JOB_H
#define JOB_H

#include <stdbool.h>
#include <stddef.h>
#include <stdint.h>

#include "format3.h"

struct job {
    uint8_t *file;
    size_t file_length;
    const uint8_t *forward;
    size_t forward_length;
    const uint8_t *backward;
    size_t backward_length;
    /* The library's answer, and the picture as it reconstructs it. */
    uint32_t number;
    struct format3_picture_result result;
    uint8_t *picture;
    size_t picture_length;
    int macroblocks;
    char letter;
};

struct jobs {
    struct job *job;
    int count;
};

/* Exits if the library has another interface than format3.h. */
void require_version(void);

/* The pictures of a reel, decoded once by the library. Exits if there are none, or if the reel is cut or a picture is
 * refused. */
struct jobs jobs_of_reel(const char *path);

/* What the macroblocks of a synthetic picture are. */
enum made_kind {
    MADE_INTRA,     /* I, every block coded */
    MADE_WHOLE_PEL, /* P, vectors of whole pels in luma and chroma */
    MADE_HALF_PEL,  /* B, both directions, half pels to the right and down in luma and chroma */
    MADE_MIXED      /* P, vectors of 0 to 7 half pels; two of every seven macroblocks have one block fewer */
};

/* A synthetic CIF picture: every macroblock has the same kind and `blocks` coded blocks with `pairs` pairs each. MADE_INTRA codes
 * all six blocks, whatever `blocks` is; MADE_MIXED needs at least one. */
struct job made_job(enum made_kind kind, int blocks, int pairs);

/* A synthetic CIF picture for the work of the transform: P, whole pels, `blocks` coded blocks a macroblock. Each block has 16
 * pairs, two in each row. A matrix scales all of them to 0 but those in `kept`, where bit 0 stands for the first in raster order
 * and bit 15 for the last: 1 keeps the DC alone, 3 the first row, 0xffff all rows. The records of macroblocks are the same bytes
 * whatever is kept.
 * If the picture is to be refused, its last record has a byte too many: it is read to its end, but not made. */
struct job rows_job(int blocks, unsigned kept, bool refused);

#endif
