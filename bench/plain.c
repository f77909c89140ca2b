/* Reconstructs Format 3 pictures in plain C, to be measured against the library. */
#include "plain.h"

#include <stdbool.h>
#include <string.h>

#include "format3.h"
#include "zigzag.h"

struct plain_census plain_census;

#ifdef PLAIN_CENSUS
#define COUNT(what) (plain_census.what++)
#else
#define COUNT(what) ((void)0)
#endif

/* Whether levels land unscaled and a second pass over the block scales them; if not, each is scaled as it lands. */
#ifdef PLAIN_SECOND_PASS
enum { SECOND_PASS = true };
#else
enum { SECOND_PASS = false };
#endif

/* Whether the second pass tests each level and leaves a 0 alone; if not, it scales all alike, which keeps 0 as it is. */
#ifdef PLAIN_SKIPS_ZEROS
enum { SKIPS_ZEROS = true };
#else
enum { SKIPS_ZEROS = false };
#endif

enum { GIVES_SCALE = 1, GIVES_FORWARD = 2, GIVES_BACKWARD = 4, GIVES_PATTERN = 8, IS_INTRA = 16 };
enum { FORWARD = 0, BACKWARD = 1 };
enum { INTRA_WEIGHTS = 0, NON_INTRA_WEIGHTS = 1 };
enum { DC_RESET = 1024, DC_MOST = 2040, LEVEL_MOST = 255, F_CODE_MOST = 7, CODE_MOST = 16, SCALE_MOST = 31 };

enum turn { AFTER_HEADER, AFTER_SLICE, AFTER_MACROBLOCK, COMPLETE };

/* In half pels. */
struct vector {
    int right;
    int down;
};

struct direction {
    bool full_pel;
    int f;
};

struct motion {
    bool used[2];
    struct vector vector[2];
};

struct slice {
    int scale;
    int dc[3];
    struct vector past[2];
    struct motion last;
    bool first;
    bool intra;
};

struct picture {
    int width;
    int height;
    int type;
    struct direction direction[2];
    uint8_t weight[2][64];
    bool given[2];
    enum turn turn;
    int next;
    int made;
    int rows;
    struct slice slice;
    const uint8_t *reference[2];
    uint8_t *output;
};

struct symbols {
    int type;
    int skipped;
    int scale;
    struct vector past[2];
    int pattern;
    int dc[3];
    int16_t coefficients[6 * 64];
};

/* The part of a body that is not read yet. */
struct rest {
    const uint8_t *at;
    const uint8_t *end;
};

static const uint8_t DEFAULT_INTRA[64] = {
    8,  16, 19, 22, 26, 27, 29, 34, 16, 16, 22, 24, 27, 29, 34, 37, 19, 22, 26, 27, 29, 34,
    34, 38, 22, 22, 26, 27, 29, 34, 37, 40, 22, 26, 27, 29, 32, 35, 40, 48, 26, 27, 29, 32,
    35, 40, 48, 58, 26, 27, 29, 34, 38, 46, 56, 69, 27, 29, 35, 38, 46, 56, 69, 83,
};

/* ---- the inverse transform: even and odd halves, exact; rows, then columns */

static inline void transform_line(const int64_t x[8], int64_t y[8])
{
    int64_t sum = 741455 * (x[0] + x[4]), difference = 741455 * (x[0] - x[4]);
    int64_t near = 968758 * x[2] + 401273 * x[6], far = 401273 * x[2] - 968758 * x[6];
    int64_t even[4] = {sum + near, difference + far, difference - far, sum - near};
    int64_t odd[4] = {
        1028428 * x[1] + 871859 * x[3] + 582558 * x[5] + 204567 * x[7],
        871859 * x[1] - 204567 * x[3] - 1028428 * x[5] - 582558 * x[7],
        582558 * x[1] - 1028428 * x[3] + 204567 * x[5] + 871859 * x[7],
        204567 * x[1] - 582558 * x[3] + 871859 * x[5] - 1028428 * x[7],
    };
    for (int p = 0; p < 4; p++) {
        y[p] = even[p] + odd[p];
        y[7 - p] = even[p] - odd[p];
    }
}

static inline int16_t residue_of(int64_t sum)
{
    int64_t rounded = (sum + (INT64_C(1) << 41)) >> 42;
    if (rounded < -256)
        return -256;
    return rounded > 255 ? 255 : (int16_t)rounded;
}

/* How many rows have a coefficient that is not 0. */
static inline int used_rows(const int16_t coefficients[64])
{
    int rows = 0;
    for (int v = 0; v < 8; v++) {
        uint64_t halves[2];
        memcpy(halves, coefficients + 8 * v, sizeof halves);
        rows += (halves[0] | halves[1]) != 0;
    }
    return rows;
}

/* What the transform has to work, as the census has it. */
static inline int work_of(const int16_t coefficients[64])
{
    for (int k = 1; k < 64; k++)
        if (coefficients[k] != 0)
            return WORK_ROWS + used_rows(coefficients) - 1;
    return coefficients[0] != 0 ? WORK_DC_ALONE : WORK_NOTHING;
}

int plain_transform(const int16_t coefficients[64], int16_t residues[64])
{
    int64_t middle[64];
    COUNT(transforms);
    COUNT(works[work_of(coefficients)]);
    for (int v = 0; v < 8; v++) {
        int64_t x[8];
        for (int u = 0; u < 8; u++)
            x[u] = coefficients[8 * v + u];
        transform_line(x, middle + 8 * v);
    }
    for (int p = 0; p < 8; p++) {
        int64_t x[8], y[8];
        for (int v = 0; v < 8; v++)
            x[v] = middle[8 * v + p];
        transform_line(x, y);
        for (int q = 0; q < 8; q++)
            residues[8 * q + p] = residue_of(y[q]);
    }
    return used_rows(coefficients);
}

/* ---- fields: each function says whether the field is wholly inside */

static bool read_byte(struct rest *rest, int *value)
{
    if (rest->at == rest->end)
        return false;
    *value = *rest->at++;
    return true;
}

static bool read_signed_byte(struct rest *rest, int *value)
{
    if (!read_byte(rest, value))
        return false;
    *value = (int8_t)*value;
    return true;
}

static bool read_word(struct rest *rest, int *value)
{
    if (rest->end - rest->at < 2)
        return false;
    *value = 256 * rest->at[0] + rest->at[1];
    rest->at += 2;
    return true;
}

static bool read_signed_word(struct rest *rest, int *value)
{
    if (!read_word(rest, value))
        return false;
    *value = (int16_t)*value;
    return true;
}

static bool within(int most, int value)
{
    return -most <= value && value <= most;
}

/* ---- blocks: each function returns 0 or the number of a refusal */

static int16_t scaled(bool intra, int level, int scale, int weight)
{
    int sign = (level > 0) - (level < 0);
    int doubled = intra ? 2 * level : 2 * level + sign;
    int value = doubled * scale * weight / 16;
    if (value % 2 == 0)
        value -= (value > 0) - (value < 0);
    if (value < -2048)
        return -2048;
    return value > 2047 ? 2047 : (int16_t)value;
}

static uint32_t read_pairs(struct rest *rest, int count, bool intra, int scale, const uint8_t *weight, int16_t *block)
{
    int position = intra ? 0 : -1;
    for (int k = 0; k < count; k++) {
        int run, level;
        COUNT(pairs);
        if (!read_byte(rest, &run))
            return FORMAT3_REFUSED_BODY_LENGTH;
        position += run + 1;
        if (position > 63)
            return FORMAT3_REFUSED_COEFFICIENT;
        if (!read_signed_word(rest, &level))
            return FORMAT3_REFUSED_BODY_LENGTH;
        if (level == 0 || !within(LEVEL_MOST, level))
            return FORMAT3_REFUSED_COEFFICIENT;
        int raster = ZIGZAG[position];
        block[raster] = SECOND_PASS ? (int16_t)level : scaled(intra, level, scale, weight[raster]);
    }
    return 0;
}

/* The second pass. The first coefficient of an intra block is its DC, which is not scaled. */
static void scale_block(bool intra, int scale, const uint8_t *weight, int16_t *block)
{
    for (int raster = intra ? 1 : 0; raster < 64; raster++)
        if (!SKIPS_ZEROS || block[raster] != 0)
            block[raster] = scaled(intra, block[raster], scale, weight[raster]);
}

static uint32_t read_dc(struct rest *rest, int *past, int16_t *block)
{
    int difference;
    if (!read_signed_word(rest, &difference))
        return FORMAT3_REFUSED_BODY_LENGTH;
    if (!within(LEVEL_MOST, difference))
        return FORMAT3_REFUSED_DC_COEFFICIENT;
    int dc = *past + 8 * difference;
    if (dc < 0 || dc > DC_MOST)
        return FORMAT3_REFUSED_DC_COEFFICIENT;
    *past = dc;
    block[0] = (int16_t)dc;
    return 0;
}

static uint32_t read_block(struct rest *rest, const struct picture *picture, struct symbols *symbols, int number)
{
    bool intra = symbols->type & IS_INTRA;
    int16_t *block = symbols->coefficients + 64 * number;
    memset(block, 0, 64 * sizeof *block);
    if (intra) {
        uint32_t refusal = read_dc(rest, &symbols->dc[number < 4 ? 0 : number - 3], block);
        if (refusal)
            return refusal;
    }
    int count;
    if (!read_byte(rest, &count))
        return FORMAT3_REFUSED_BODY_LENGTH;
    if (intra ? count > 63 : count < 1 || count > 64)
        return FORMAT3_REFUSED_COEFFICIENT;
    const uint8_t *weight = picture->weight[intra ? INTRA_WEIGHTS : NON_INTRA_WEIGHTS];
    uint32_t refusal = read_pairs(rest, count, intra, symbols->scale, weight, block);
    if (SECOND_PASS && !refusal)
        scale_block(intra, symbols->scale, weight, block);
    return refusal;
}

/* ---- the fields of a macroblock */

static bool legal_type(int picture_type, int type)
{
    static const uint32_t legal[4] = {0, 0x30000, 0x30f04, 0x3fc54};
    return type < 32 && (legal[picture_type] >> type & 1);
}

static bool legal_increment(const struct picture *picture, int increment)
{
    const struct slice *slice = &picture->slice;
    if (increment == 0 || picture->next + increment > picture->width * picture->height)
        return false;
    if (increment == 1)
        return true;
    return !slice->first && picture->type != FORMAT3_I_PICTURE && !(picture->type == FORMAT3_B_PICTURE && slice->intra);
}

static int moved(int f, int past, int code, int residual)
{
    if (code == 0)
        return past;
    int steps = ((code < 0 ? -code : code) - 1) * f + residual + 1;
    int sum = past + (code < 0 ? -steps : steps);
    if (sum < -16 * f)
        return sum + 32 * f;
    return sum > 16 * f - 1 ? sum - 32 * f : sum;
}

static uint32_t read_component(struct rest *rest, int f, int *past)
{
    int code, residual;
    if (!read_signed_byte(rest, &code))
        return FORMAT3_REFUSED_BODY_LENGTH;
    if (!within(CODE_MOST, code))
        return FORMAT3_REFUSED_VECTOR_CODE;
    if (!read_byte(rest, &residual))
        return FORMAT3_REFUSED_BODY_LENGTH;
    if (code == 0 ? residual != 0 : residual >= f)
        return FORMAT3_REFUSED_VECTOR_CODE;
    *past = moved(f, *past, code, residual);
    return 0;
}

static uint32_t read_vector(struct rest *rest, int f, struct vector *past)
{
    uint32_t refusal = read_component(rest, f, &past->right);
    return refusal ? refusal : read_component(rest, f, &past->down);
}

static uint32_t read_vectors(struct rest *rest, const struct picture *picture, struct symbols *symbols)
{
    uint32_t refusal = 0;
    if (symbols->type & GIVES_FORWARD)
        refusal = read_vector(rest, picture->direction[FORWARD].f, &symbols->past[FORWARD]);
    if (!refusal && (symbols->type & GIVES_BACKWARD))
        refusal = read_vector(rest, picture->direction[BACKWARD].f, &symbols->past[BACKWARD]);
    return refusal;
}

static uint32_t read_scale(struct rest *rest, int *scale)
{
    if (!read_byte(rest, scale))
        return FORMAT3_REFUSED_BODY_LENGTH;
    return *scale < 1 || *scale > SCALE_MOST ? FORMAT3_REFUSED_QUANTIZER_SCALE : 0;
}

static uint32_t read_head(struct rest *rest, const struct picture *picture, struct symbols *symbols)
{
    int increment;
    if (!read_byte(rest, &symbols->type))
        return FORMAT3_REFUSED_BODY_LENGTH;
    if (!legal_type(picture->type, symbols->type))
        return FORMAT3_REFUSED_MACROBLOCK_TYPE;
    if (!read_word(rest, &increment))
        return FORMAT3_REFUSED_BODY_LENGTH;
    if (!legal_increment(picture, increment))
        return FORMAT3_REFUSED_ADDRESS_INCREMENT;
    symbols->skipped = increment - 1;
    symbols->scale = picture->slice.scale;
    return symbols->type & GIVES_SCALE ? read_scale(rest, &symbols->scale) : 0;
}

static uint32_t read_pattern(struct rest *rest, struct symbols *symbols)
{
    symbols->pattern = symbols->type & IS_INTRA ? 63 : 0;
    if (!(symbols->type & GIVES_PATTERN))
        return 0;
    if (!read_byte(rest, &symbols->pattern))
        return FORMAT3_REFUSED_BODY_LENGTH;
    return symbols->pattern < 1 || symbols->pattern > 63 ? FORMAT3_REFUSED_PATTERN : 0;
}

/* The predictors that the record starts from: a skip resets those of DC and, in P, those of vectors. */
static void start_pasts(const struct picture *picture, struct symbols *symbols)
{
    memcpy(symbols->dc, picture->slice.dc, sizeof symbols->dc);
    memcpy(symbols->past, picture->slice.past, sizeof symbols->past);
    if (symbols->skipped == 0)
        return;
    for (int k = 0; k < 3; k++)
        symbols->dc[k] = DC_RESET;
    if (picture->type == FORMAT3_P_PICTURE)
        memset(symbols->past, 0, sizeof symbols->past);
}

static uint32_t read_symbols(struct rest rest, const struct picture *picture, struct symbols *symbols)
{
    uint32_t refusal = read_head(&rest, picture, symbols);
    if (refusal)
        return refusal;
    start_pasts(picture, symbols);
    if ((refusal = read_vectors(&rest, picture, symbols)) || (refusal = read_pattern(&rest, symbols)))
        return refusal;
    for (int number = 0; number < 6; number++) {
        if (!(symbols->pattern & 32 >> number))
            continue;
        if ((refusal = read_block(&rest, picture, symbols, number)))
            return refusal;
    }
    return rest.at == rest.end ? 0 : FORMAT3_REFUSED_BODY_LENGTH;
}

/* ---- motion */

static struct vector used_vector(struct direction direction, struct vector past)
{
    int times = direction.full_pel ? 2 : 1;
    return (struct vector){times * past.right, times * past.down};
}

/* How a macroblock is predicted: an intra one not at all; a P without a vector uses vector 0. */
static struct motion motion_of(const struct picture *picture, const struct symbols *symbols)
{
    static const int gives[2] = {GIVES_FORWARD, GIVES_BACKWARD};
    struct motion motion = {{false, false}, {{0, 0}, {0, 0}}};
    for (int k = 0; k < 2; k++) {
        if (!(symbols->type & gives[k]))
            continue;
        motion.used[k] = true;
        motion.vector[k] = used_vector(picture->direction[k], symbols->past[k]);
    }
    if (picture->type == FORMAT3_P_PICTURE && !(symbols->type & IS_INTRA))
        motion.used[FORWARD] = true;
    return motion;
}

static struct motion skip_motion(const struct picture *picture)
{
    struct motion still = {{true, false}, {{0, 0}, {0, 0}}};
    return picture->type == FORMAT3_P_PICTURE ? still : picture->slice.last;
}

static bool fits_at(int place, int length, int component)
{
    int first = 2 * place + component;
    return 0 <= first && first <= 2 * (length - 16);
}

/* 0, or the refusal of the first direction whose vector doesn't fit. */
static uint32_t test_fit(const struct picture *picture, int address, const struct motion *motion)
{
    static const uint32_t refusals[] = {
        [FORWARD] = FORMAT3_REFUSED_FORWARD_VECTOR_OUTSIDE,
        [BACKWARD] = FORMAT3_REFUSED_BACKWARD_VECTOR_OUTSIDE,
    };
    int x = 16 * (address % picture->width), y = 16 * (address / picture->width);
    for (int k = 0; k < 2; k++) {
        if (motion->used[k]
            && !(fits_at(x, 16 * picture->width, motion->vector[k].right)
                && fits_at(y, 16 * picture->height, motion->vector[k].down)))
            return refusals[k];
    }
    return 0;
}

/* ---- writing */

/* A plane, and the location of a block in it. */
struct place {
    size_t plane;
    int stride;
    int x;
    int y;
};

static struct place place_of(const struct picture *picture, int address, int number)
{
    size_t macroblocks = (size_t)(picture->width * picture->height);
    int column = address % picture->width, row = address / picture->width;
    if (number < 4)
        return (struct place){0, 16 * picture->width, 16 * column + 8 * (number % 2), 16 * row + 8 * (number / 2)};
    return (struct place){(number == 4 ? 256 : 320) * macroblocks, 8 * picture->width, 8 * column, 8 * row};
}

/* The block at half-pel position (x, y) of a plane: the mean of one, two or four pels. */
static void fetch_block(const uint8_t *plane, int stride, int x, int y, uint8_t block[64])
{
    const uint8_t *from = plane + (ptrdiff_t)(y >> 1) * stride + (x >> 1);
    bool right = x & 1, down = y & 1;
    if (right || down)
        COUNT(half_pel_fetches);
    else
        COUNT(whole_pel_fetches);
    for (int j = 0; j < 8; j++, from += stride, block += 8) {
        if (!right && !down)
            memcpy(block, from, 8);
        else if (!down)
            for (int i = 0; i < 8; i++)
                block[i] = (uint8_t)((from[i] + from[i + 1] + 1) >> 1);
        else if (!right)
            for (int i = 0; i < 8; i++)
                block[i] = (uint8_t)((from[i] + from[i + stride] + 1) >> 1);
        else
            for (int i = 0; i < 8; i++)
                block[i] = (uint8_t)((from[i] + from[i + 1] + from[i + stride] + from[i + stride + 1] + 2) >> 2);
    }
}

static void fetch_from(const uint8_t *reference, struct place place, struct vector vector, bool chroma, uint8_t block[64])
{
    int right = chroma ? vector.right / 2 : vector.right;
    int down = chroma ? vector.down / 2 : vector.down;
    fetch_block(reference + place.plane, place.stride, 2 * place.x + right, 2 * place.y + down, block);
}

static void predict_block(
    const struct picture *picture, const struct motion *motion, struct place place, bool chroma, uint8_t block[64])
{
    if (!motion->used[FORWARD] && !motion->used[BACKWARD]) {
        memset(block, 0, 64);
        return;
    }
    int first = motion->used[FORWARD] ? FORWARD : BACKWARD;
    fetch_from(picture->reference[first], place, motion->vector[first], chroma, block);
    if (!motion->used[FORWARD] || !motion->used[BACKWARD])
        return;
    uint8_t other[64];
    fetch_from(picture->reference[BACKWARD], place, motion->vector[BACKWARD], chroma, other);
    COUNT(means_of_both);
    for (int k = 0; k < 64; k++)
        block[k] = (uint8_t)((block[k] + other[k] + 1) >> 1);
}

/* Answers how many rows of the coefficients are not all 0. */
static int add_residues(const int16_t coefficients[64], uint8_t block[64])
{
    int16_t residues[64];
    int rows = plain_transform(coefficients, residues);
    for (int k = 0; k < 64; k++) {
        int16_t pel = (int16_t)(block[k] + residues[k]);
        block[k] = pel < 0 ? 0 : pel > 255 ? 255 : (uint8_t)pel;
    }
    return rows;
}

static void store_block(uint8_t *plane, struct place place, const uint8_t block[64])
{
    COUNT(stores);
    for (int j = 0; j < 8; j++)
        memcpy(plane + (ptrdiff_t)(place.y + j) * place.stride + place.x, block + 8 * j, 8);
}

/* A macroblock's six blocks; `coefficients` has those that the pattern codes. Answers how many of their rows are not all 0. */
static int write_macroblock(
    const struct picture *picture, int address, const struct motion *motion, int pattern, const int16_t *coefficients)
{
    int rows = 0;
    for (int number = 0; number < 6; number++) {
        struct place place = place_of(picture, address, number);
        uint8_t block[64];
        predict_block(picture, motion, place, number >= 4, block);
        if (pattern & 32 >> number)
            rows += add_residues(coefficients + 64 * number, block);
        store_block(picture->output + place.plane, place, block);
    }
    return rows;
}

/* ---- records */

static void update_slice(struct picture *picture, const struct symbols *symbols, const struct motion *motion)
{
    struct slice *slice = &picture->slice;
    bool intra = symbols->type & IS_INTRA;
    slice->scale = symbols->scale;
    for (int k = 0; k < 3; k++)
        slice->dc[k] = intra ? symbols->dc[k] : DC_RESET;
    memcpy(slice->past, symbols->past, sizeof slice->past);
    if (intra || (picture->type == FORMAT3_P_PICTURE && !(symbols->type & GIVES_FORWARD)))
        memset(slice->past, 0, sizeof slice->past);
    slice->last = *motion;
    slice->first = false;
    slice->intra = intra;
}

static uint32_t act_macroblock(struct picture *picture, struct rest body)
{
    struct symbols symbols;
    uint32_t refusal = read_symbols(body, picture, &symbols);
    if (refusal)
        return refusal;
    int address = picture->next + symbols.skipped;
    struct motion motion = motion_of(picture, &symbols), skip = skip_motion(picture);
    for (int k = picture->next; k < address; k++)
        if ((refusal = test_fit(picture, k, &skip)))
            return refusal;
    if ((refusal = test_fit(picture, address, &motion)))
        return refusal;
    for (int k = picture->next; k < address; k++)
        write_macroblock(picture, k, &skip, 0, NULL);
    picture->rows += write_macroblock(picture, address, &motion, symbols.pattern, symbols.coefficients);
    update_slice(picture, &symbols, &motion);
    picture->next = address + 1;
    picture->made += symbols.skipped + 1;
    picture->turn = picture->next == picture->width * picture->height ? COMPLETE : AFTER_MACROBLOCK;
    return 0;
}

static uint32_t act_slice(struct picture *picture, struct rest body)
{
    if (body.end - body.at != 3)
        return FORMAT3_REFUSED_BODY_LENGTH;
    int scale = body.at[0];
    if (scale < 1 || scale > SCALE_MOST)
        return FORMAT3_REFUSED_QUANTIZER_SCALE;
    if (256 * body.at[1] + body.at[2] != picture->next)
        return FORMAT3_REFUSED_SLICE_START;
    picture->slice = (struct slice){.scale = scale, .dc = {DC_RESET, DC_RESET, DC_RESET}, .first = true};
    picture->turn = AFTER_SLICE;
    return 0;
}

static uint32_t act_matrix(struct picture *picture, struct rest body)
{
    if (body.end - body.at != 65)
        return FORMAT3_REFUSED_BODY_LENGTH;
    int which = body.at[0];
    const uint8_t *weights = body.at + 1;
    if (which > 1 || picture->given[which])
        return FORMAT3_REFUSED_MATRIX;
    if ((which == INTRA_WEIGHTS && weights[0] != 8) || memchr(weights, 0, 64) != NULL)
        return FORMAT3_REFUSED_MATRIX;
    for (int k = 0; k < 64; k++)
        picture->weight[which][ZIGZAG[k]] = weights[k];
    picture->given[which] = true;
    return 0;
}

static bool in_turn(enum turn turn, int kind)
{
    switch (turn) {
    case AFTER_HEADER:
        return kind == FORMAT3_KIND_MATRIX || kind == FORMAT3_KIND_SLICE;
    case AFTER_SLICE:
        return kind == FORMAT3_KIND_MACROBLOCK;
    case AFTER_MACROBLOCK:
        return kind == FORMAT3_KIND_SLICE || kind == FORMAT3_KIND_MACROBLOCK;
    default:
        return false;
    }
}

static uint32_t act(struct picture *picture, int kind, struct rest body)
{
    if (!in_turn(picture->turn, kind))
        return FORMAT3_REFUSED_OUT_OF_TURN;
    if (kind == FORMAT3_KIND_MATRIX)
        return act_matrix(picture, body);
    if (kind == FORMAT3_KIND_SLICE)
        return act_slice(picture, body);
    return act_macroblock(picture, body);
}

/* The next record: its kind and body. */
static uint32_t read_record(struct rest left, int *kind, struct rest *body)
{
    if (left.end - left.at < 3)
        return FORMAT3_REFUSED_RECORD_CUT;
    int length = 256 * left.at[0] + left.at[1];
    if (length == 0 || left.end - left.at - 2 < length)
        return FORMAT3_REFUSED_RECORD_CUT;
    *kind = left.at[2];
    *body = (struct rest){left.at + 3, left.at + 2 + length};
    return *kind < FORMAT3_KIND_HEADER || *kind > FORMAT3_KIND_MACROBLOCK ? FORMAT3_REFUSED_RECORD_KIND : 0;
}

static bool read_direction(struct picture *picture, int which, bool used, const uint8_t field[2])
{
    int full_pel = field[0], f_code = field[1];
    if (!used)
        return full_pel == 0 && f_code == 0;
    if (full_pel > 1 || f_code < 1 || f_code > F_CODE_MOST)
        return false;
    picture->direction[which] = (struct direction){full_pel == 1, 1 << (f_code - 1)};
    return true;
}

static uint32_t read_header(struct picture *picture, struct rest body)
{
    if (body.end - body.at != 7)
        return FORMAT3_REFUSED_BODY_LENGTH;
    const uint8_t *field = body.at;
    int width = field[0], height = field[1], type = field[2];
    if (width < 1 || width > FORMAT3_MAX_WIDTH || height < 1 || height > FORMAT3_MAX_HEIGHT)
        return FORMAT3_REFUSED_HEADER;
    if (width * height > FORMAT3_MAX_MACROBLOCKS || type < FORMAT3_I_PICTURE || type > FORMAT3_B_PICTURE)
        return FORMAT3_REFUSED_HEADER;
    if (!read_direction(picture, FORWARD, type != FORMAT3_I_PICTURE, field + 3))
        return FORMAT3_REFUSED_HEADER;
    if (!read_direction(picture, BACKWARD, type == FORMAT3_B_PICTURE, field + 5))
        return FORMAT3_REFUSED_HEADER;
    picture->width = width;
    picture->height = height;
    picture->type = type;
    return 0;
}

static uint32_t test_lengths(const struct picture *picture, size_t output, size_t forward, size_t backward)
{
    size_t bytes = (size_t)(FORMAT3_MACROBLOCK_BYTES * picture->width * picture->height);
    if (output != bytes)
        return FORMAT3_REFUSED_OUTPUT_LENGTH;
    if (forward != (picture->type == FORMAT3_I_PICTURE ? 0 : bytes))
        return FORMAT3_REFUSED_FORWARD_LENGTH;
    return backward != (picture->type == FORMAT3_B_PICTURE ? bytes : 0) ? FORMAT3_REFUSED_BACKWARD_LENGTH : 0;
}

static void start_picture(struct picture *picture)
{
    memcpy(picture->weight[INTRA_WEIGHTS], DEFAULT_INTRA, 64);
    memset(picture->weight[NON_INTRA_WEIGHTS], 16, 64);
    picture->turn = AFTER_HEADER;
}

/* The header, which must be the first record. */
static uint32_t open_picture(struct picture *picture, struct rest *left, size_t output, size_t forward, size_t backward)
{
    int kind;
    struct rest body;
    uint32_t refusal = read_record(*left, &kind, &body);
    if (refusal)
        return refusal;
    if (kind != FORMAT3_KIND_HEADER)
        return FORMAT3_REFUSED_OUT_OF_TURN;
    if ((refusal = read_header(picture, body)))
        return refusal;
    start_picture(picture);
    left->at = body.end;
    return test_lengths(picture, output, forward, backward);
}

static uint32_t read_records(struct picture *picture, struct rest *left)
{
    while (left->at < left->end) {
        int kind;
        struct rest body;
        uint32_t refusal = read_record(*left, &kind, &body);
        if (refusal || (refusal = act(picture, kind, body)))
            return refusal;
        left->at = body.end;
    }
    return picture->turn == COMPLETE ? 0 : FORMAT3_REFUSED_FILE_ENDS;
}

static uint32_t read_file(struct picture *picture, struct rest *left, size_t output, size_t forward, size_t backward)
{
    if (left->at == left->end)
        return FORMAT3_REFUSED_FILE_EMPTY;
    if (*left->at != 3)
        return FORMAT3_REFUSED_VERSION;
    left->at++;
    if (left->at == left->end)
        return FORMAT3_REFUSED_FILE_ENDS;
    const uint8_t *first = left->at;
    uint32_t refusal = open_picture(picture, left, output, forward, backward);
    if (refusal)
        left->at = first;
    return refusal ? refusal : read_records(picture, left);
}

uint32_t plain_reconstruct(
    const uint8_t *file, size_t file_length,
    const uint8_t *forward, size_t forward_length,
    const uint8_t *backward, size_t backward_length,
    uint8_t *output, size_t output_length,
    struct format3_picture_result *result)
{
    struct picture picture = {.reference = {forward, backward}, .output = output};
    struct rest left = {file, file + file_length};
    uint32_t number = read_file(&picture, &left, output_length, forward_length, backward_length);
    result->place = (size_t)(left.at - file);
    result->made = (size_t)picture.made;
    result->rows = (size_t)picture.rows;
    return number;
}
