/* Makes the jobs to measure: pictures from reels, and synthetic ones. */
#include "job.h"

#include <stdio.h>
#include <stdlib.h>
#include <string.h>

#include "format3.h"
#include "zigzag.h"

enum { FORWARD = 2, BACKWARD = 4, PATTERN = 8, INTRA = 16 };
enum { NON_INTRA_MATRIX = 1, LENGTH_BYTES = 4 };

/* By coding type. format3_read_header gives 1 to 3, and 0 if it refuses the header. */
static const char LETTERS[] = "?IPB";

_Noreturn static void fail(const char *what, const char *why)
{
    fprintf(stderr, "bench: %s: %s\n", what, why);
    exit(2);
}

static void *allocate(size_t length)
{
    void *memory = calloc(1, length + 1);
    if (memory == NULL)
        fail("memory", "not enough");
    return memory;
}

void require_version(void)
{
    if (format3_api_version() != FORMAT3_API_VERSION)
        fail("the library", "has another interface than format3.h");
}

/* ---- reels */

struct bytes {
    uint8_t *data;
    size_t length;
};

static struct bytes read_whole(const char *path)
{
    FILE *file = fopen(path, "rb");
    if (file == NULL || fseek(file, 0, SEEK_END) != 0)
        fail(path, "cannot be read");
    long length = ftell(file);
    if (length < 0)
        fail(path, "has no length");
    struct bytes bytes = {allocate((size_t)length), (size_t)length};
    rewind(file);
    if (fread(bytes.data, 1, bytes.length, file) != bytes.length)
        fail(path, "cannot be read");
    fclose(file);
    return bytes;
}

/* The last two reference pictures. */
struct references {
    const struct job *newer;
    const struct job *older;
};

static void lend(struct job *job, const struct job *forward, const struct job *backward)
{
    if (forward != NULL) {
        job->forward = forward->picture;
        job->forward_length = forward->picture_length;
    }
    if (backward != NULL) {
        job->backward = backward->picture;
        job->backward_length = backward->picture_length;
    }
}

/* A job for a file. Exits if its header is refused. */
static struct job job_of_file(const char *path, uint8_t *file, size_t length, struct references references)
{
    struct format3_header header;
    uint32_t number = format3_read_header(file, length, &header);
    if (number != FORMAT3_ACCEPTED)
        fail(path, format3_answer_text(number));
    struct job job = {.file = file, .file_length = length, .macroblocks = (int)(header.width * header.height)};
    job.letter = LETTERS[header.coding_type];
    job.picture_length = (size_t)(FORMAT3_MACROBLOCK_BYTES * job.macroblocks);
    job.picture = allocate(job.picture_length);
    if (header.coding_type == FORMAT3_P_PICTURE)
        lend(&job, references.newer, NULL);
    if (header.coding_type == FORMAT3_B_PICTURE)
        lend(&job, references.older, references.newer);
    return job;
}

/* Decodes a job by the library. Exits if it gives another answer. */
static void decode(struct job *job, const char *name, uint32_t answer)
{
    job->number = format3_reconstruct(
        job->file, job->file_length, job->forward, job->forward_length, job->backward, job->backward_length,
        job->picture, job->picture_length, &job->result);
    if (job->number != answer)
        fail(name, format3_answer_text(job->number));
}

static size_t big_endian(const uint8_t length[LENGTH_BYTES])
{
    return (size_t)length[0] << 24 | (size_t)length[1] << 16 | (size_t)length[2] << 8 | length[3];
}

/* The length of the file whose length field is at an offset. Exits if either is cut. */
static size_t file_length_at(const char *path, struct bytes reel, size_t offset)
{
    size_t left = reel.length - offset;
    size_t length = left < LENGTH_BYTES ? 0 : big_endian(reel.data + offset);
    if (left < LENGTH_BYTES || left - LENGTH_BYTES < length)
        fail(path, "is cut");
    return length;
}

static int count_files(const char *path, struct bytes reel)
{
    int count = 0;
    for (size_t offset = 0; offset < reel.length; offset += LENGTH_BYTES + file_length_at(path, reel, offset))
        count++;
    return count;
}

struct jobs jobs_of_reel(const char *path)
{
    struct bytes reel = read_whole(path);
    struct jobs jobs = {NULL, count_files(path, reel)};
    struct references references = {NULL, NULL};
    if (jobs.count == 0)
        fail(path, "has no picture");
    jobs.job = allocate((size_t)jobs.count * sizeof *jobs.job);
    size_t offset = 0;
    for (int k = 0; k < jobs.count; k++) {
        size_t length = file_length_at(path, reel, offset);
        jobs.job[k] = job_of_file(path, reel.data + offset + LENGTH_BYTES, length, references);
        decode(&jobs.job[k], path, FORMAT3_ACCEPTED);
        if (jobs.job[k].letter != 'B')
            references = (struct references){&jobs.job[k], references.newer};
        offset += LENGTH_BYTES + length;
    }
    return jobs;
}

/* ---- synthetic pictures */

enum { WIDTH = 22, HEIGHT = 18, MACROBLOCKS = WIDTH * HEIGHT };
enum { MAX_RECORD_BYTES = 4 + 8 + 1 + 6 * (3 + 3 * 64), MAX_FILE_BYTES = 128 + MACROBLOCKS * MAX_RECORD_BYTES };

/* What a synthetic picture is made of. Levels and weights are in zigzag order. */
struct plan {
    enum made_kind kind;
    int scale;
    /* The non-intra matrix to load, or NULL. */
    const uint8_t *weights;
    /* The coded blocks of a macroblock, and the levels of each; a level of 0 has no pair. */
    int blocks;
    int levels[64];
    /* Whether the last record has a byte too many. */
    bool refused;
};

static void put(struct job *job, int byte)
{
    job->file[job->file_length++] = (uint8_t)byte;
}

static void put_word(struct job *job, int word)
{
    put(job, word >> 8 & 255);
    put(job, word & 255);
}

/* The length field is filled in when the record ends. */
static size_t start_record(struct job *job, int kind)
{
    size_t start = job->file_length;
    put_word(job, 0);
    put(job, kind);
    return start;
}

static void end_record(struct job *job, size_t start)
{
    size_t length = job->file_length - start - 2;
    job->file[start] = (uint8_t)(length >> 8);
    job->file[start + 1] = (uint8_t)length;
}

static void put_header(struct job *job, int type)
{
    int forward = type != FORMAT3_I_PICTURE, backward = type == FORMAT3_B_PICTURE;
    int fields[7] = {WIDTH, HEIGHT, type, 0, forward, 0, backward};
    size_t start = start_record(job, FORMAT3_KIND_HEADER);
    for (int k = 0; k < 7; k++)
        put(job, fields[k]);
    end_record(job, start);
}

static void put_matrix(struct job *job, const uint8_t *weights)
{
    if (weights == NULL)
        return;
    size_t start = start_record(job, FORMAT3_KIND_MATRIX);
    put(job, NON_INTRA_MATRIX);
    for (int k = 0; k < 64; k++)
        put(job, weights[k]);
    end_record(job, start);
}

static void put_slice(struct job *job, int scale)
{
    size_t start = start_record(job, FORMAT3_KIND_SLICE);
    put(job, scale);
    put_word(job, 0);
    end_record(job, start);
}

static int count_pairs(const int levels[64])
{
    int pairs = 0;
    for (int k = 0; k < 64; k++)
        pairs += levels[k] != 0;
    return pairs;
}

static void put_block(struct job *job, bool intra, const int levels[64])
{
    int next = intra ? 1 : 0;
    if (intra)
        put_word(job, 0);
    put(job, count_pairs(levels));
    for (int position = next; position < 64; position++) {
        if (levels[position] == 0)
            continue;
        put(job, position - next);
        put_word(job, levels[position]);
        next = position + 1;
    }
}

struct vector {
    int right;
    int down;
};

/* A vector towards the middle of the picture, so that it never points outside. */
static int towards_middle(int place, int length, int size)
{
    return place < length / 2 ? size : -size;
}

/* The vector of the macroblock at an address, in half pels; 0 before the first. */
static struct vector vector_at(enum made_kind kind, int address)
{
    int right = kind == MADE_WHOLE_PEL ? 4 : 3, down = right;
    if (kind == MADE_MIXED) {
        right = 5 * address % 8;
        down = 3 * address % 8;
    }
    if (address < 0)
        return (struct vector){0, 0};
    return (struct vector){
        towards_middle(address % WIDTH, WIDTH, right), towards_middle(address / WIDTH, HEIGHT, down)};
}

/* With f_code 1, a code is just the difference from the predictor, and the residual is 0. */
static void put_vector(struct job *job, enum made_kind kind, int address)
{
    struct vector vector = vector_at(kind, address), past = vector_at(kind, address - 1);
    put(job, vector.right - past.right);
    put(job, 0);
    put(job, vector.down - past.down);
    put(job, 0);
}

static void put_head(struct job *job, enum made_kind kind, int address, int blocks)
{
    bool both = kind == MADE_HALF_PEL, coded = blocks > 0;
    if (kind == MADE_INTRA) {
        put(job, INTRA);
        put_word(job, 1);
        return;
    }
    put(job, FORWARD + (both ? BACKWARD : 0) + (coded ? PATTERN : 0));
    put_word(job, 1);
    put_vector(job, kind, address);
    if (both)
        put_vector(job, kind, address);
    if (coded)
        put(job, 64 - (64 >> blocks));
}

/* How many blocks are coded in the macroblock at an address. */
static int coded_blocks(const struct plan *plan, int address)
{
    if (plan->kind == MADE_INTRA)
        return 6;
    return plan->kind == MADE_MIXED && address % 7 >= 5 ? plan->blocks - 1 : plan->blocks;
}

static void put_macroblock(struct job *job, const struct plan *plan, int address)
{
    int blocks = coded_blocks(plan, address);
    size_t start = start_record(job, FORMAT3_KIND_MACROBLOCK);
    put_head(job, plan->kind, address, blocks);
    for (int k = 0; k < blocks; k++)
        put_block(job, plan->kind == MADE_INTRA, plan->levels);
    if (plan->refused && address == MACROBLOCKS - 1)
        put(job, 0);
    end_record(job, start);
}

/* A reference picture of noise. */
static uint8_t *noise(size_t length)
{
    uint8_t *bytes = allocate(length);
    uint32_t state = 1;
    for (size_t k = 0; k < length; k++) {
        state = 1664525 * state + 1013904223;
        bytes[k] = (uint8_t)(state >> 24);
    }
    return bytes;
}

static struct job planned_job(const struct plan *plan)
{
    static const int types[] = {FORMAT3_I_PICTURE, FORMAT3_P_PICTURE, FORMAT3_B_PICTURE, FORMAT3_P_PICTURE};
    int type = types[plan->kind];
    struct job job = {.macroblocks = MACROBLOCKS, .letter = LETTERS[type]};
    job.picture_length = FORMAT3_MACROBLOCK_BYTES * MACROBLOCKS;
    job.picture = allocate(job.picture_length);
    job.file = allocate(MAX_FILE_BYTES);
    put(&job, 3);
    put_header(&job, type);
    put_matrix(&job, plan->weights);
    put_slice(&job, plan->scale);
    for (int address = 0; address < MACROBLOCKS; address++)
        put_macroblock(&job, plan, address);
    struct job reference = {.picture = noise(job.picture_length), .picture_length = job.picture_length};
    lend(&job, type == FORMAT3_I_PICTURE ? NULL : &reference, type == FORMAT3_B_PICTURE ? &reference : NULL);
    decode(&job, "made picture", plan->refused ? FORMAT3_REFUSED_BODY_LENGTH : FORMAT3_ACCEPTED);
    return job;
}

/* Low coefficients of both signs, with no zeros between them. */
struct job made_job(enum made_kind kind, int blocks, int pairs)
{
    struct plan plan = {.kind = kind, .scale = 8, .blocks = blocks};
    int first = kind == MADE_INTRA ? 1 : 0;
    if (first + pairs > 64)
        fail("made picture", "too many pairs");
    for (int k = 0; k < pairs; k++)
        plan.levels[first + k] = k % 2 == 0 ? 3 : -2;
    return planned_job(&plan);
}

enum { KEPT_COLUMNS = 2 };

/* How many rows have a coefficient that is kept. */
static int kept_rows(unsigned kept)
{
    int rows = 0;
    for (; kept != 0; kept >>= KEPT_COLUMNS)
        rows += kept % (1 << KEPT_COLUMNS) != 0;
    return rows;
}

/* With a scale of 1 a weight of 22 makes a level of 1 into 4 and then, since that is even, into 3; a weight of 1 makes it 0. So
 * both quotients are even, and scaling takes the same steps. */
struct job rows_job(int blocks, unsigned kept, bool refused)
{
    uint8_t weights[64];
    struct plan plan = {.kind = MADE_WHOLE_PEL, .scale = 1, .weights = weights, .blocks = blocks, .refused = refused};
    for (int k = 0; k < 64; k++) {
        int row = ZIGZAG[k] / 8, column = ZIGZAG[k] % 8;
        bool coded = column < KEPT_COLUMNS;
        plan.levels[k] = !coded ? 0 : column == 0 ? 1 : -1;
        weights[k] = coded && kept >> (KEPT_COLUMNS * row + column) & 1 ? 22 : 1;
    }
    struct job job = planned_job(&plan);
    if (job.result.rows != job.result.made * (size_t)(blocks * kept_rows(kept)))
        fail("made picture", "the answer has another number of rows");
    return job;
}
