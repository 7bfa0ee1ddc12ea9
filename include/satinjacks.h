/*
 * Satinjacks: boxes of animals in, frame by frame, identified tracks out.
 *
 * Link the library whose path ./build-library prints (x86-64, System V
 * calling convention; of libc it needs memcpy, memmove, memset).
 *
 * No call allocates, keeps a pointer or has state of its own: the tracker is
 * the SatinjacksTracker that the caller holds. Copy, store or send its bytes
 * as you like; calls on different trackers may run at the same time. A tracker
 * that a version before document 02's 2.5 stored may be refused with 1: README,
 * 'What a host must know', says how to mend it. A frame needs up to 157 KiB of
 * stack, making a tracker up to 49 KiB.
 *
 * Every pointer is aligned for its type and not null, also that of an empty
 * slice. Where it is followed by a length, the length counts elements, and the
 * pointer is to at least as many. What one call is given must not overlap:
 * image (or wide, floats and words), input, boxes and ids of a frame; cost, x
 * and y of an assignment.
 *
 * That a refused call writes nothing is proved of the values, of which all
 * NaNs are one; that a NaN keeps its bytes too is what tests/boundary shows.
 *
 * satinjacks_new, satinjacks_with_settings and satinjacks_update stand here:
 * they lend the tracker's three lists to the calls that the library exports.
 */
#ifndef SATINJACKS_H
#define SATINJACKS_H

#include <stddef.h>
#include <stdint.h>

#ifdef __cplusplus
extern "C" {
#endif

/*
 * 0.1.0, as one number that #if can compare: 10,000 for each major version,
 * 100 for each minor one, 1 for each patch. A minor version more has other
 * calls, numbers or bytes of a tracker; a patch more has the same.
 */
#define SATINJACKS_VERSION 100

/* Room that a frame's answer asks for, however few tracks there are. */
#define SATINJACKS_BOXES 256 /* floats: x, y, width, height of 64 reports */
#define SATINJACKS_IDS 64    /* ids of 64 reports */
#define SATINJACKS_OBJECTS 64 /* objects that a frame may bring */

/* Why a call was turned away; 0 where it was not. Numbers will be added: take any but 0 for a refusal. */
enum {
    SATINJACKS_ACCEPTED = 0,
    SATINJACKS_UNSOUND_STATE = 1, /* the image breaks a state rule, or a tag in it is neither 0 nor 1 */
    SATINJACKS_BAD_SETTING = 2,   /* a setting is outside its range */
    SATINJACKS_RAGGED_FRAME = 3,  /* the input's length is no multiple of 5 */
    SATINJACKS_CROWDED_FRAME = 4, /* more than 64 objects */
    SATINJACKS_SHORT_ANSWER = 5,  /* boxes below 256 floats, or ids below 64 */
    SATINJACKS_RUN_OVER = 6,      /* 1,000,000 frames are counted: make a new tracker */
    SATINJACKS_FULL_TABLE = 7,    /* more than 64 tracks: call with no objects, which ages tracks, or with fewer */
    SATINJACKS_BAD_MATRIX = 8,    /* the assignment's sizes don't agree */
    SATINJACKS_COST_OUT_OF_RANGE = 12 /* a whole cost is outside -1,000,000 to 1,000,000 */
};

typedef struct {
    float x1, y1, x2, y2, score;
} SatinjacksBox;

typedef struct {
    float x, y, s, r; /* centre, area, width over height plus 1e-6: the last box as measured */
} SatinjacksListBox;

typedef struct {
    float dy, dx;
} SatinjacksDirection;

typedef struct {
    float x[7];
    float p[49];
} SatinjacksFilter;

/* The floats of a track, 163. */
typedef struct {
    SatinjacksFilter filter, saved;
    SatinjacksBox last;
    SatinjacksListBox list;
    SatinjacksDirection direction;
    SatinjacksBox kept[8];
} SatinjacksTrackFloats;

/* The words of a track, 15. A tag `has_` is 0 where there is none, 1 where there is one; frozen is 0 or 1. */
typedef struct {
    uint32_t frozen, age, streak, since;
    uint32_t has_last, has_list, has_direction, has_kept[8];
} SatinjacksTrackWords;

/*
 * The whole tracker, 46,128 bytes without padding: too much for some stacks,
 * so better in static storage or on the heap. It is three lists of numbers,
 * one for each type; track k is id[k], floats[k] and words[k]. Read `issued`
 * (ids given so far), `count` (live tracks) and `frames` at any time. Cells of
 * tracks past `count` mean nothing; a tracker that is made and an accepted
 * frame have zeros there.
 */
typedef struct {
    /* wide: 66 */
    uint64_t issued, count;
    uint64_t id[64]; /* a report's id is one more */
    /* floats: 10,435 */
    float det_thresh, iou_threshold, inertia;
    SatinjacksTrackFloats floats[64];
    /* words: 965 */
    uint32_t max_age, min_hits, delta_t, use_byte;
    uint32_t frames;
    SatinjacksTrackWords words[64];
} SatinjacksTracker;

#if defined(__cplusplus) && __cplusplus >= 201103L
#define SATINJACKS_ASSERT(c, why) static_assert(c, why)
#elif defined(__STDC_VERSION__) && __STDC_VERSION__ >= 201112L
#define SATINJACKS_ASSERT(c, why) _Static_assert(c, why)
#else
#define SATINJACKS_ASSERT(c, why) struct satinjacks_no_assert
#endif
SATINJACKS_ASSERT(offsetof(SatinjacksTracker, det_thresh) == 8 * 66, "wide is 66 numbers");
SATINJACKS_ASSERT(offsetof(SatinjacksTracker, max_age) == 8 * 66 + 4 * 10435, "floats is 10,435 numbers");
SATINJACKS_ASSERT(sizeof(SatinjacksTracker) == 46128, "words is 965 numbers, and nothing follows");
#undef SATINJACKS_ASSERT

typedef struct {
    float det_thresh;    /* not NaN: the score above which an object may begin a track */
    float iou_threshold; /* 0 to 1 */
    float inertia;       /* 0 to 1 */
    uint32_t max_age;    /* 0 to 255 */
    uint32_t min_hits;   /* 0 to 255 */
    uint32_t delta_t;    /* 0 to 8 */
    uint32_t use_byte;   /* 0 or 1: whether scores above 0.1, not above det_thresh, are offered to tracks left */
} SatinjacksSettings;

typedef struct {
    uint64_t number; /* the refusal, or 0 */
    size_t count;    /* reports in the buffers; 0 with a refusal */
} SatinjacksReply;

/*
 * What the library exports: the calls below on a tracker's three lists, 66
 * numbers wide, 10,435 floats and 965 words, which need not stand together.
 */
uint64_t satinjacks_new_lists(uint64_t *wide, float *floats, uint32_t *words, float det_thresh);
uint64_t satinjacks_with_settings_lists(uint64_t *wide, float *floats, uint32_t *words, SatinjacksSettings settings);
SatinjacksReply satinjacks_update_lists(uint64_t *wide, float *floats, uint32_t *words,
                                        const float *input, size_t input_len,
                                        float *boxes, size_t boxes_len,
                                        uint64_t *ids, size_t ids_len);

typedef struct {
    uint64_t number; /* the refusal, or 0 */
    size_t reads;    /* cost entries read, at most 3n^3 + 6n^2; 0 with a refusal */
} SatinjacksAssignReply;

/*
 * Pairs n rows and n columns, n from 1 to 64, by n*n costs given row after
 * row: x gets each row's column, y each column's row. The number is 0, or 8:
 * then nothing is written.
 */
SatinjacksAssignReply satinjacks_assign(size_t n, const double *cost, size_t cost_len,
                                        int64_t *x, size_t x_len, int64_t *y, size_t y_len);

/*
 * The same by whole costs from -1,000,000 to 1,000,000: no one-to-one pairing
 * has a smaller total. 0, or 8, or 12 for a cost out of range where the sizes
 * agree: then nothing is written. Its reads aren't told.
 */
uint64_t satinjacks_assign_whole(size_t n, const int64_t *cost, size_t cost_len,
                                 int64_t *x, size_t x_len, int64_t *y, size_t y_len);

/*
 * Of all patterns of overlaps above the threshold, rows by columns, how many
 * take the shortcut of the pairing (no row and no column has more than one,
 * and there is one) and how many go to the assignment. 1 to 4 rows by 1 to 4
 * columns; any other size gives 0 and 0.
 */
typedef struct {
    uint64_t shortcut, assignment;
} SatinjacksShortcuts;

SatinjacksShortcuts satinjacks_shortcuts(uint64_t rows, uint64_t columns);

/* A tracker's lists; from the tracker's own pointer, since each goes past the field that it begins with. */
static inline uint64_t *satinjacks_wide(SatinjacksTracker *image)
{
    return (uint64_t *)(void *)image;
}

static inline float *satinjacks_floats(SatinjacksTracker *image)
{
    return (float *)(void *)((char *)image + offsetof(SatinjacksTracker, det_thresh));
}

static inline uint32_t *satinjacks_words(SatinjacksTracker *image)
{
    return (uint32_t *)(void *)((char *)image + offsetof(SatinjacksTracker, max_age));
}

/*
 * Makes a tracker with iou_threshold 0.3, inertia 0.2, max_age 30, min_hits 3,
 * delta_t 3, use_byte 0. 0, or 2: then nothing is written.
 */
static inline uint64_t satinjacks_new(SatinjacksTracker *image, float det_thresh)
{
    return satinjacks_new_lists(satinjacks_wide(image), satinjacks_floats(image), satinjacks_words(image), det_thresh);
}

/* The same with all seven settings. */
static inline uint64_t satinjacks_with_settings(SatinjacksTracker *image, SatinjacksSettings settings)
{
    return satinjacks_with_settings_lists(satinjacks_wide(image), satinjacks_floats(image), satinjacks_words(image),
                                          settings);
}

/*
 * One frame. The input has x, y, width, height and score of each object, so
 * input_len is 5 for each. An accepted frame writes the reports from the
 * start of both buffers: x, y, width, height to boxes, the id to ids; cells
 * past them keep their content. A refusal leaves image, boxes and ids as they
 * were, byte for byte. A frame without animals is a call with input_len 0:
 * without it tracks don't age.
 */
static inline SatinjacksReply satinjacks_update(SatinjacksTracker *image,
                                                const float *input, size_t input_len,
                                                float *boxes, size_t boxes_len,
                                                uint64_t *ids, size_t ids_len)
{
    return satinjacks_update_lists(satinjacks_wide(image), satinjacks_floats(image), satinjacks_words(image),
                                   input, input_len, boxes, boxes_len, ids, ids_len);
}

#ifdef __cplusplus
}
#endif

#endif
