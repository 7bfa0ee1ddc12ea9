/*
 * The exported calls on anything, each frame held against the plain form of
 * the same call (`satinjacks_update_by_value`, crate by_value), which is
 * proved against the same contract and converts the whole image both ways.
 *
 *     boundary CALLS SEED
 *
 * Images: those that runs of real frames grew, as they are or with a field
 * damaged, with wild floats, with random bytes past the count, or at the
 * limit of frames; and random bytes. Inputs and buffers of any length and
 * content. The image is lent whole, or its three lists apart. Every list and
 * buffer touches a page that faults, at its end or at its start, and on the
 * other side bytes that must stay.
 *
 * Compared are number, count, every cell of both buffers and the image: an
 * accepted frame leaves the plain form's (all NaNs are one value), a refusal
 * leaves every byte as it was. Past the count an accepted frame and a new
 * tracker have zeros. A list box that isn't the last box as measured here is
 * refused with 1. A refusal that never came is a failure. First, a known
 * run's numbers must stand where the header's names say.
 */
#include "satinjacks.h"

#include <stdio.h>
#include <stdlib.h>
#include <string.h>
#include <sys/mman.h>

typedef struct {
    SatinjacksTracker image;
    SatinjacksReply reply;
} Stepped;

Stepped satinjacks_update_by_value(SatinjacksTracker i, const float *input, size_t input_len, float *boxes, size_t boxes_len,
                                   uint64_t *ids, size_t ids_len);

enum { PAGE = 4096, ARENA = 16 * PAGE, GUARD = 256, INPUT_MAX = 420, BOXES_MAX = 300, IDS_MAX = 80, RUNS = 6, LIMIT = 1000000 };
/* The image as 32-bit words: where floats and words begin, and its end. */
enum {
    FLOATS = offsetof(SatinjacksTracker, det_thresh) / 4,
    WORDS = offsetof(SatinjacksTracker, max_age) / 4,
    END = sizeof(SatinjacksTracker) / 4
};

static unsigned long call;
static unsigned long long seed;

#define CHECK(c) \
    do { \
        if (!(c)) { \
            fprintf(stderr, "boundary: seed %llu, call %lu, line %d: %s\n", seed, call, __LINE__, #c); \
            exit(1); \
        } \
    } while (0)

/* ---- random numbers */

static uint64_t state;

static uint64_t next(void)
{
    state ^= state << 13;
    state ^= state >> 7;
    state ^= state << 17;
    return state * 0x2545F4914F6CDD1DULL;
}

static uint32_t below(uint32_t n) { return (uint32_t)((next() >> 16) % n); }
static int one_in(uint32_t n) { return below(n) == 0; }

static void random_bytes(void *p, size_t n)
{
    unsigned char *b = p;
    for (; n >= 8; b += 8, n -= 8) {
        uint64_t w = next();
        memcpy(b, &w, 8);
    }
    uint64_t w = next();
    memcpy(b, &w, n);
}

/* Any float: zeros, infinities, NaNs of both kinds, the ends of the range, any pattern, or a plain number. */
static uint32_t any_float(void)
{
    static const uint32_t special[] = {0x00000000, 0x80000000, 0x7F800000, 0xFF800000, 0x7FC00000, 0xFFC00001, 0x7F800001, 0xFFBFFFFF,
                                       0x00000001, 0x807FFFFF, 0x00800000, 0x7F7FFFFF, 0xFF7FFFFF, 0x3F800000, 0x3F7FFFFF, 0xBF800000};
    uint32_t bits;
    float x = (float)below(2000) - 200;
    switch (below(4)) {
    case 0: return special[below(sizeof special / 4)];
    case 1: return (uint32_t)(next() >> 16);
    default: memcpy(&bits, &x, 4); return bits;
    }
}

static int is_nan(uint32_t bits) { return (bits & 0x7FFFFFFF) > 0x7F800000; }

/* ---- places with guards */

typedef struct {
    unsigned char *arena, *at;
    size_t bytes;
    int ends; /* it touches the faulting page at its end, else at its start */
} Place;

static Place place(void)
{
    unsigned char *a = mmap(NULL, ARENA + 2 * PAGE, PROT_READ | PROT_WRITE, MAP_PRIVATE | MAP_ANONYMOUS, -1, 0);
    CHECK(a != MAP_FAILED && mprotect(a, PAGE, PROT_NONE) == 0 && mprotect(a + PAGE + ARENA, PAGE, PROT_NONE) == 0);
    return (Place){a + PAGE, NULL, 0, 0};
}

static unsigned char *guard(const Place *p) { return p->ends ? p->at - GUARD : p->at + p->bytes; }

static void *lay(Place *p, size_t bytes)
{
    CHECK(bytes + GUARD <= ARENA);
    p->ends = one_in(2);
    p->bytes = bytes;
    p->at = p->ends ? p->arena + ARENA - bytes : p->arena;
    memset(guard(p), 0xA5, GUARD);
    return p->at;
}

static int guarded(const Place *p)
{
    static unsigned char untouched[GUARD];
    if (untouched[0] == 0)
        memset(untouched, 0xA5, GUARD);
    return memcmp(guard(p), untouched, GUARD) == 0;
}

/* ---- equality in which all NaNs are one value */

static int is_float(size_t k) { return FLOATS <= k && k < WORDS; }

static uint32_t word(const void *p, size_t k)
{
    uint32_t w;
    memcpy(&w, (const unsigned char *)p + 4 * k, 4);
    return w;
}

static void set_word(void *p, size_t k, uint32_t w) { memcpy((unsigned char *)p + 4 * k, &w, 4); }

static int same_floats(const void *a, const void *b, size_t n)
{
    for (size_t k = 0; k < n; k++)
        if (word(a, k) != word(b, k) && !(is_nan(word(a, k)) && is_nan(word(b, k))))
            return 0;
    return 1;
}

static int same_image(const SatinjacksTracker *a, const SatinjacksTracker *b)
{
    if (memcmp(a, b, sizeof *a) == 0)
        return 1;
    for (size_t k = 0; k < END; k++)
        if (word(a, k) != word(b, k) && !(is_float(k) && is_nan(word(a, k)) && is_nan(word(b, k))))
            return 0;
    return 1;
}

static size_t live(const SatinjacksTracker *i) { return i->count <= 64 ? i->count : 64; }

/* Where word k of the head stands, and word k of a track: those of wide, of floats, of words. */
enum { HEAD = 4 + 3 + 5, CELL = 2 + 163 + 15 };

static size_t in_head(size_t k) { return k < 4 ? k : k < 7 ? FLOATS + k - 4 : WORDS + k - 7; }

static size_t in_track(size_t t, size_t k)
{
    return k < 2 ? 4 + 2 * t + k : k < 165 ? FLOATS + 3 + 163 * t + k - 2 : WORDS + 5 + 15 * t + k - 165;
}

static int holds_nan(const SatinjacksTracker *i)
{
    for (size_t t = 0; t < live(i); t++)
        for (size_t k = 0; k < CELL; k++)
            if (is_float(in_track(t, k)) && is_nan(word(i, in_track(t, k))))
                return 1;
    return 0;
}

static int is_clear_past_the_count(const SatinjacksTracker *i)
{
    for (size_t t = live(i); t < 64; t++)
        for (size_t k = 0; k < CELL; k++)
            if (word(i, in_track(t, k)) != 0)
                return 0;
    return 1;
}

/* ---- a state rule, worked out here: the list box is the last box as measured */

static SatinjacksListBox measured(const SatinjacksBox *b)
{
    float w = b->x2 - b->x1, h = b->y2 - b->y1;
    return (SatinjacksListBox){b->x1 + w / 2, b->y1 + h / 2, w * h, w / (h + 0.000001f)};
}

static int holds_both(const SatinjacksTracker *i, size_t t) { return i->words[t].has_last == 1 && i->words[t].has_list == 1; }

static int is_listed(const SatinjacksTracker *i)
{
    for (size_t t = 0; t < live(i); t++) {
        SatinjacksListBox z = measured(&i->floats[t].last);
        if (holds_both(i, t) && !same_floats(&z, &i->floats[t].list, 4))
            return 0;
    }
    return 1;
}

static void mend_lists(SatinjacksTracker *i)
{
    for (size_t t = 0; t < live(i); t++)
        if (holds_both(i, t))
            i->floats[t].list = measured(&i->floats[t].last);
}

/* ---- the image as a call gets it: whole, or its lists each in a place of its own */

static Place whole, lists[3];
static int is_apart;
static const size_t from[4] = {0, 4 * FLOATS, 4 * WORDS, 4 * END};

static void lend(const SatinjacksTracker *i)
{
    is_apart = one_in(2);
    if (!is_apart)
        memcpy(lay(&whole, sizeof *i), i, sizeof *i);
    else
        for (int k = 0; k < 3; k++)
            memcpy(lay(&lists[k], from[k + 1] - from[k]), (const unsigned char *)i + from[k], from[k + 1] - from[k]);
}

static void take_back(SatinjacksTracker *i)
{
    if (!is_apart) {
        CHECK(guarded(&whole));
        memcpy(i, whole.at, sizeof *i);
        return;
    }
    for (int k = 0; k < 3; k++) {
        CHECK(guarded(&lists[k]));
        memcpy((unsigned char *)i + from[k], lists[k].at, from[k + 1] - from[k]);
    }
}

#define WHOLE ((SatinjacksTracker *)(void *)whole.at)
#define LISTS (uint64_t *)(void *)lists[0].at, (float *)(void *)lists[1].at, (uint32_t *)(void *)lists[2].at

/* ---- making a tracker */

static unsigned long made[9], assigned[9], planned[3];

static int unit(float x) { return 0 <= x && x <= 1; }

static int in_range(const SatinjacksSettings *s)
{
    return s->det_thresh == s->det_thresh && unit(s->iou_threshold) && unit(s->inertia) && s->max_age <= 255 && s->min_hits <= 255
        && s->delta_t <= 8 && s->use_byte <= 1;
}

/* An empty tracker with these settings: nothing counted. */
static int begins(const SatinjacksTracker *i, const SatinjacksSettings *s)
{
    SatinjacksSettings held = {i->det_thresh, i->iou_threshold, i->inertia, i->max_age, i->min_hits, i->delta_t, i->use_byte};
    return i->count == 0 && i->frames == 0 && i->issued == 0 && memcmp(&held, s, sizeof held) == 0 && is_clear_past_the_count(i);
}

/* Settings that a host means, any bytes, or meant ones with a field damaged. */
static SatinjacksSettings any_settings(void)
{
    SatinjacksSettings s = {(float)below(100) / 100, (float)below(5) / 8, (float)below(5) / 4, one_in(2) ? below(6) : below(256),
                            below(5), below(9), below(2)};
    uint32_t kind = below(8);
    if (kind == 0)
        random_bytes(&s, sizeof s);
    else if (kind <= 3)
        set_word(&s, below(sizeof s / 4), one_in(2) ? any_float() : below(300));
    return s;
}

static void make(SatinjacksTracker *image)
{
    static SatinjacksTracker was;
    for (int done = 0; !done;) {
        random_bytes(&was, sizeof was);
        lend(&was);
        SatinjacksSettings s = any_settings();
        uint64_t number;
        if (one_in(4)) {
            SatinjacksSettings d = {s.det_thresh, 0.3f, 0.2f, 30, 3, 3, 0};
            s = d;
            number = is_apart ? satinjacks_new_lists(LISTS, s.det_thresh) : satinjacks_new(WHOLE, s.det_thresh);
        } else {
            number = is_apart ? satinjacks_with_settings_lists(LISTS, s) : satinjacks_with_settings(WHOLE, s);
        }
        take_back(image);
        CHECK(number == (in_range(&s) ? SATINJACKS_ACCEPTED : SATINJACKS_BAD_SETTING));
        done = number == 0;
        made[number]++;
        CHECK(done ? begins(image, &s) : memcmp(image, &was, sizeof was) == 0);
    }
}

/* ---- the header's names: an animal seen in three frames, then hidden, and its numbers where their names say */

static int near_to(double a, double b) { return a - b < 1e-3 && b - a < 1e-3; }

static int is_box(const SatinjacksBox *b, float x, float y)
{
    return b->x1 == x && b->y1 == y && b->x2 == x + 64 && b->y2 == y + 32 && b->score == 0.75f;
}

static void names(void)
{
    static SatinjacksTracker i;
    static float boxes[SATINJACKS_BOXES];
    static uint64_t ids[SATINJACKS_IDS];
    const SatinjacksTrackFloats *f = i.floats;
    const SatinjacksTrackWords *w = i.words;
    CHECK(satinjacks_new(&i, 0.5f) == 0);
    for (int k = 0; k < 4; k++) {
        float animal[5] = {3 * (float)k, 4 * (float)k, 64, 32, 0.75f};
        CHECK(satinjacks_update(&i, animal, k < 3 ? 5 : 0, boxes, SATINJACKS_BOXES, ids, SATINJACKS_IDS).number == 0);
        CHECK(k == 3 || (w->frozen == 0 && f->saved.x[0] == 0 && f->saved.p[48] == 0 && near_to(f->filter.x[0], 32 + 3 * k)));
    }
    CHECK(i.issued == 1 && i.count == 1 && i.id[0] == 0);
    CHECK(i.det_thresh == 0.5f && i.iou_threshold == 0.3f && i.inertia == 0.2f);
    CHECK(i.max_age == 30 && i.min_hits == 3 && i.delta_t == 3 && i.use_byte == 0 && i.frames == 4);
    CHECK(w->frozen == 1 && w->age == 3 && w->streak == 2 && w->since == 1);
    CHECK(w->has_last == 1 && w->has_list == 1 && w->has_direction == 1);
    for (int k = 0; k < 8; k++)
        CHECK(w->has_kept[k] == (k == 1 || k == 2));
    CHECK(is_box(&f->last, 6, 8) && is_box(&f->kept[1], 6, 8) && is_box(&f->kept[2], 3, 4));
    CHECK(f->list.x == 38 && f->list.y == 24 && f->list.s == 2048 && f->list.r == 2);
    CHECK(near_to(f->direction.dy, 0.8) && near_to(f->direction.dx, 0.6));
    CHECK(near_to(f->filter.x[4], 3) && near_to(f->filter.x[5], 4) && f->filter.p[0] > 0 && f->filter.p[48] > 0);
    CHECK(memcmp(&f->filter, &f->saved, sizeof f->filter) == 0);
}

/* ---- zeros are a state without tracks */

static void zeros(void)
{
    static SatinjacksTracker i;
    static float input[5], boxes[SATINJACKS_BOXES];
    static uint64_t ids[SATINJACKS_IDS];
    CHECK(satinjacks_update(&i, input, 0, boxes, SATINJACKS_BOXES, ids, SATINJACKS_IDS).number == 0 && i.frames == 1);
}

/* ---- the assignment */

static size_t near(size_t n) { return one_in(8) ? n + 1 : one_in(8) && n > 0 ? n - 1 : n; }

static void assignment(Place *pc, Place *px, Place *py)
{
    static unsigned char cost0[8 * 66 * 66], x0[8 * 80], y0[8 * 80];
    size_t n = one_in(4) ? below(66) : below(9);
    size_t c = near(n * n), l = near(n), m = near(n);
    double *cost = lay(pc, 8 * c);
    int64_t *x = lay(px, 8 * l), *y = lay(py, 8 * m);
    if (one_in(16)) /* sizes whose square is that of a small matrix, or none */
        n = one_in(2) ? (size_t)1 << (32 + below(32)) | (one_in(2) ? n : 0) : (size_t)next();
    int any = one_in(3);
    for (size_t k = 0; k < c; k++)
        cost[k] = below(4);
    if (any)
        random_bytes(cost, 8 * c);
    random_bytes(x, 8 * l);
    random_bytes(y, 8 * m);
    memcpy(cost0, cost, 8 * c);
    memcpy(x0, x, 8 * l);
    memcpy(y0, y, 8 * m);
    int fits = n >= 1 && n <= 64 && c == n * n && l == n && m == n;
    SatinjacksAssignReply r = satinjacks_assign(n, cost, c, x, l, y, m);
    CHECK(r.number == (fits ? SATINJACKS_ACCEPTED : SATINJACKS_BAD_MATRIX));
    CHECK(fits ? n * n <= r.reads && r.reads <= 3 * n * n * n + 6 * n * n : r.reads == 0);
    CHECK(guarded(pc) && guarded(px) && guarded(py) && memcmp(cost, cost0, 8 * c) == 0);
    assigned[r.number]++;
    if (fits)
        for (size_t k = 0; k < n; k++)
            CHECK(0 <= x[k] && x[k] < (int64_t)n && y[x[k]] == (int64_t)k);
    else
        CHECK(memcmp(x, x0, 8 * l) == 0 && memcmp(y, y0, 8 * m) == 0);
}

/* The same by whole costs, a few of them out of range. Refusal 12 is told apart from others by its place in `planned`: 0, 1 for 8, 2 for 12. */
static void whole_assignment(Place *pc, Place *px, Place *py)
{
    static unsigned char cost0[8 * 66 * 66], x0[8 * 80], y0[8 * 80];
    size_t n = one_in(4) ? below(66) : below(9);
    size_t c = near(n * n), l = near(n), m = near(n);
    int64_t *cost = lay(pc, 8 * c), *x = lay(px, 8 * l), *y = lay(py, 8 * m);
    if (one_in(16))
        n = one_in(2) ? (size_t)1 << (32 + below(32)) | (one_in(2) ? n : 0) : (size_t)next();
    int kind = (int)below(4), held = 1;
    for (size_t k = 0; k < c; k++)
        cost[k] = kind == 0 ? below(4) : kind == 1 ? (one_in(2) ? LIMIT : -LIMIT) : (int64_t)below(2 * LIMIT + 1) - LIMIT;
    if (kind == 3)
        random_bytes(cost, 8 * c);
    if (c > 0 && one_in(4))
        cost[below((uint32_t)c)] = one_in(2) ? LIMIT + 1 : -LIMIT - 1;
    for (size_t k = 0; k < c; k++)
        held &= -LIMIT <= cost[k] && cost[k] <= LIMIT;
    random_bytes(x, 8 * l);
    random_bytes(y, 8 * m);
    memcpy(cost0, cost, 8 * c);
    memcpy(x0, x, 8 * l);
    memcpy(y0, y, 8 * m);
    int fits = n >= 1 && n <= 64 && c == n * n && l == n && m == n;
    uint64_t number = satinjacks_assign_whole(n, cost, c, x, l, y, m);
    CHECK(number == (!fits ? SATINJACKS_BAD_MATRIX : !held ? SATINJACKS_COST_OUT_OF_RANGE : SATINJACKS_ACCEPTED));
    CHECK(guarded(pc) && guarded(px) && guarded(py) && memcmp(cost, cost0, 8 * c) == 0);
    planned[number == 0 ? 0 : number == 8 ? 1 : 2]++;
    if (number != 0) {
        CHECK(memcmp(x, x0, 8 * l) == 0 && memcmp(y, y0, 8 * m) == 0);
        return;
    }
    for (size_t k = 0; k < n; k++)
        CHECK(0 <= x[k] && x[k] < (int64_t)n && y[x[k]] == (int64_t)k);
    /* no exchange of two rows' columns is cheaper */
    for (size_t i = 0; i < n; i++)
        for (size_t k = 0; k < i; k++)
            CHECK(cost[i * n + x[i]] + cost[k * n + x[k]] <= cost[i * n + x[k]] + cost[k * n + x[i]]);
}

/* ---- how often the shortcut runs */

/* No row and no column of the pattern has more than one, and there is one. */
static int takes_shortcut(uint64_t rows, uint64_t columns, uint64_t pattern)
{
    unsigned of_row[4] = {0}, of_column[4] = {0};
    for (uint64_t k = 0; k < rows * columns; k++)
        if (pattern >> k & 1)
            if (++of_row[k / columns] > 1 || ++of_column[k % columns] > 1)
                return 0;
    return pattern != 0;
}

static void count_shortcuts(uint64_t rows, uint64_t columns)
{
    uint64_t shortcut = 0, assignment = 0;
    if (rows >= 1 && rows <= 4 && columns >= 1 && columns <= 4)
        for (uint64_t pattern = 0; pattern < (uint64_t)1 << (rows * columns); pattern++)
            *(takes_shortcut(rows, columns, pattern) ? &shortcut : &assignment) += 1;
    SatinjacksShortcuts r = satinjacks_shortcuts(rows, columns);
    CHECK(r.shortcut == shortcut && r.assignment == assignment);
}

/* ---- runs: animals that walk and hide, boxes anywhere, or a flood that fills the table */

typedef struct {
    SatinjacksTracker image;
    uint32_t scene, animals;
    float x[64], y[64], vx[64], vy[64];
} Run;

static void begin(Run *r)
{
    make(&r->image);
    r->scene = below(6);
    r->animals = one_in(4) ? 1 + below(64) : 1 + below(12);
    for (uint32_t k = 0; k < 64; k++) {
        r->x[k] = (float)below(1500);
        r->y[k] = (float)below(1000);
        r->vx[k] = (float)below(17) - 8;
        r->vy[k] = (float)below(17) - 8;
    }
}

/* A frame of the run as 5 floats an object; returns how many objects. */
static size_t objects(Run *r, float *out)
{
    size_t n = 0, most = r->scene == 4 ? below(12) : 20 + below(45);
    if (one_in(12))
        return 0;
    if (r->scene < 4)
        for (uint32_t k = 0; k < r->animals; k++) {
            r->x[k] += r->vx[k];
            r->y[k] += r->vy[k];
            if (below(16) < 13) {
                float *o = out + 5 * n++;
                o[0] = r->x[k] + (float)below(5);
                o[1] = r->y[k] + (float)below(5);
                o[2] = 60 + (float)(k % 7) * 5;
                o[3] = 40 + (float)below(4);
                o[4] = one_in(4) ? (float)below(101) / 100 : 1;
            }
        }
    else
        for (; n < most; n++) {
            float *o = out + 5 * n;
            o[0] = (float)below(640);
            o[1] = (float)below(640);
            o[2] = 32 + (float)below(64);
            o[3] = 32 + (float)below(64);
            o[4] = (float)below(101) / 100;
        }
    return n;
}

/* ---- images */

/* Some tag of a track. */
static uint32_t *tag(SatinjacksTrackWords *t)
{
    uint32_t k = below(12);
    return k < 8 ? &t->has_kept[k] : k == 8 ? &t->frozen : k == 9 ? &t->has_last : k == 10 ? &t->has_list : &t->has_direction;
}

/* A tag other than 0 and 1, or one word of the head or of a live track, rather a count, a setting or a tag than a float. */
static void damage(SatinjacksTracker *i)
{
    size_t tracks = live(i), k;
    if (tracks > 0 && one_in(4)) {
        *tag(&i->words[below((uint32_t)tracks)]) = one_in(2) ? 2 : (uint32_t)next() | 2;
        return;
    }
    int any = one_in(3), head = tracks == 0 || one_in(3);
    do
        k = head ? in_head(below(HEAD)) : in_track(below((uint32_t)tracks), below(CELL));
    while (!any && is_float(k));
    uint32_t w = word(i, k);
    switch (below(6)) {
    case 0: w = below(4); break;
    case 1: w = w + 1; break;
    case 2: w = w - 1; break;
    case 3: w = w ^ 1U << below(32); break;
    case 4: w = 60 + below(8); break;
    default: w = any_float(); break;
    }
    set_word(i, k, w);
}

static void past_the_count(SatinjacksTracker *i)
{
    for (size_t t = live(i); t < 64; t++)
        for (size_t k = 0; k < CELL; k++)
            set_word(i, in_track(t, k), (uint32_t)(next() >> 16));
}

/* Any floats in the tracks; mostly the list boxes follow the last boxes, without which hardly an image would pass. */
static void wild_floats(SatinjacksTracker *i)
{
    uint32_t rare = 1 + below(60);
    for (size_t t = 0; t < live(i); t++)
        for (size_t k = 0; k < CELL; k++)
            if (is_float(in_track(t, k)) && one_in(rare))
                set_word(i, in_track(t, k), any_float());
    if (!one_in(8))
        mend_lists(i);
}

/* Random bytes, or random tracks whose tags mean something under the head of a run. */
static void random_image(SatinjacksTracker *i)
{
    if (one_in(2)) {
        random_bytes(i, sizeof *i);
        return;
    }
    random_bytes(i->id, sizeof i->id);
    random_bytes(i->floats, sizeof i->floats);
    for (size_t k = in_track(0, 165); k < END; k++)
        set_word(i, k, below(2));
}

/* ---- a frame by both calls */

static unsigned long counts[9], reporting, with_nan;

static size_t room(size_t asked, size_t most)
{
    return one_in(40) ? below((uint32_t)asked) : one_in(40) ? asked - 1 : one_in(2) ? asked : asked + below((uint32_t)(most - asked) + 1);
}

static Place places[6];

static void frame(Run *run)
{
    static SatinjacksTracker before, after, plain;
    static Stepped by;
    static float input0[INPUT_MAX];
    static unsigned char boxes0[4 * BOXES_MAX], ids0[8 * IDS_MAX];
    Place *p = places;

    size_t n = 5 * objects(run, input0);
    if (one_in(24))
        n = one_in(2) ? n + 1 + below(4) : below(INPUT_MAX + 1);
    if (one_in(24))
        n = 5 * (65 + below(15)) + (one_in(4) ? below(5) : 0);
    if (one_in(8))
        for (uint32_t k = 0, rare = 1 + below(80); k < INPUT_MAX; k++)
            if (one_in(rare))
                set_word(input0, k, any_float());
    size_t m = room(256, BOXES_MAX), l = room(64, IDS_MAX);
    random_bytes(boxes0, 4 * m);
    random_bytes(ids0, 8 * l);

    before = run->image;
    uint32_t kind = below(20); /* from 10 on the image is as the run grew it */
    if (kind == 0)
        random_image(&before);
    else if (kind <= 2)
        wild_floats(&before);
    else if (kind <= 4)
        past_the_count(&before);
    else if (kind <= 9)
        for (uint32_t k = one_in(4) ? 3 : 1; k-- > 0;)
            damage(&before);
    int limit = one_in(40);
    if (limit)
        before.frames = LIMIT - 1 + (one_in(4) ? 0 : 1) + (one_in(8) ? 1 : 0);
    lend(&before);

    /* the plain form may have other bytes where nothing lives */
    plain = before;
    int other = one_in(4);
    if (other)
        past_the_count(&plain);

    float *input = lay(&p[0], 4 * n), *boxes = lay(&p[1], 4 * m), *input2 = lay(&p[3], 4 * n), *boxes2 = lay(&p[4], 4 * m);
    uint64_t *ids = lay(&p[2], 8 * l), *ids2 = lay(&p[5], 8 * l);
    memcpy(input, input0, 4 * n);
    memcpy(input2, input0, 4 * n);
    memcpy(boxes, boxes0, 4 * m);
    memcpy(boxes2, boxes0, 4 * m);
    memcpy(ids, ids0, 8 * l);
    memcpy(ids2, ids0, 8 * l);

    SatinjacksReply r = is_apart ? satinjacks_update_lists(LISTS, input, n, boxes, m, ids, l)
                                 : satinjacks_update(WHOLE, input, n, boxes, m, ids, l);
    take_back(&after);
    by = satinjacks_update_by_value(plain, input2, n, boxes2, m, ids2, l);

    CHECK(r.number == by.reply.number && r.count == by.reply.count);
    CHECK(r.number <= SATINJACKS_FULL_TABLE && r.number != SATINJACKS_BAD_SETTING && r.count <= 64);
    for (int k = 0; k < 6; k++)
        CHECK(guarded(&p[k]));
    CHECK(memcmp(input, input0, 4 * n) == 0 && memcmp(input2, input0, 4 * n) == 0);
    CHECK(r.number == 0 || r.count == 0);

    /* the reports' cells, then the cells that keep every byte */
    size_t f = 4 * r.count, d = r.count;
    CHECK(f <= m && d <= l);
    CHECK(same_floats(boxes, boxes2, f) && memcmp(ids, ids2, 8 * d) == 0);
    CHECK(memcmp(boxes + f, boxes0 + 4 * f, 4 * (m - f)) == 0 && memcmp(ids + d, ids0 + 8 * d, 8 * (l - d)) == 0);
    CHECK(memcmp(boxes2 + f, boxes0 + 4 * f, 4 * (m - f)) == 0 && memcmp(ids2 + d, ids0 + 8 * d, 8 * (l - d)) == 0);

    CHECK(r.number == SATINJACKS_UNSOUND_STATE || is_listed(&before));
    counts[r.number]++;
    if (r.number != 0) {
        CHECK(memcmp(&after, &before, sizeof before) == 0);
        CHECK(same_image(&by.image, &plain));
        return;
    }
    CHECK(same_image(&after, &by.image));
    CHECK(after.frames == before.frames + 1 && is_clear_past_the_count(&after) && is_listed(&after));
    reporting += r.count > 0;
    with_nan += holds_nan(&after);
    if (kind > 9 && !limit)
        run->image = after;
}

static int complete = 1;

/* How often each of these numbers came; one that never came is a failure. */
static void tally(const char *what, const unsigned long *came, const char *numbers)
{
    unsigned long all = 0;
    for (const char *n = numbers; *n; n++)
        all += came[*n - '0'];
    printf("%s%lu %s:", came == counts ? "" : "; ", all, what);
    for (const char *n = numbers; *n; n++)
        printf(" %c x%lu%s", *n, came[*n - '0'], n[1] ? "," : "");
    for (const char *n = numbers; *n; n++)
        complete &= came[*n - '0'] > 0;
}

int main(int argc, char **argv)
{
    CHECK(argc == 3);
    unsigned long calls = strtoul(argv[1], NULL, 10);
    seed = strtoull(argv[2], NULL, 10);
    state = seed * 2 + 1;
    for (int k = 0; k < 64; k++)
        next();
    whole = place();
    for (int k = 0; k < 3; k++)
        lists[k] = place();
    for (int k = 0; k < 6; k++)
        places[k] = place();
    names();
    zeros();
    for (uint64_t rows = 0; rows <= 8; rows++)
        for (uint64_t columns = 0; columns <= 8; columns++) {
            count_shortcuts(rows, columns);
            /* sizes whose low bits are these */
            count_shortcuts((uint64_t)1 << 32 | rows, columns);
            count_shortcuts(rows, (uint64_t)1 << 63 | columns);
        }
    static Run runs[RUNS];
    for (int k = 0; k < RUNS; k++)
        begin(&runs[k]);
    for (call = 1; call <= calls; call++) {
        Run *r = &runs[below(RUNS)];
        if (one_in(150))
            begin(r);
        if (one_in(20)) {
            static SatinjacksTracker spare;
            make(&spare);
        }
        if (one_in(20))
            assignment(&places[0], &places[1], &places[2]);
        if (one_in(20))
            whole_assignment(&places[0], &places[1], &places[2]);
        frame(r);
    }
    tally("frames", counts, "0134567");
    printf(" (%lu with reports, %lu left a NaN)", reporting, with_nan);
    tally("trackers made", made, "02");
    tally("assignments", assigned, "08");
    printf("; by whole costs: 0 x%lu, 8 x%lu, 12 x%lu", planned[0], planned[1], planned[2]);
    complete &= planned[0] > 0 && planned[1] > 0 && planned[2] > 0;
    printf("\n");
    fflush(stdout);
    CHECK(complete);
    return 0;
}
