/*
 * The lines of docs/PROTOCOL.md, answered by the library that C programs link
 * (include/satinjacks.h): so the calls that are shipped are held against the
 * original, and not only the crates below them.
 *
 * Offered are the lines on the held tracker (`new`, `frame`, `repeat`,
 * `state`, `hash`, `load`) and those of the other exported calls (`lap`,
 * `lapreads`, `lapint`, `shortcuts`); the rest of that page is answered `?`.
 * Lines may be of any length. `compare --library` builds this and runs it.
 */
#define _POSIX_C_SOURCE 200809L /* for getline */

#include "satinjacks.h"

#include <stdbool.h>
#include <stdio.h>
#include <stdlib.h>
#include <string.h>
#include <sys/types.h>

static void stop(const char *why)
{
    fprintf(stderr, "shipped: %s\n", why);
    exit(2);
}

/* A list with room for so many elements, its content kept. One more is asked for: an empty list has a place too. */
static void *with_room(void *list, size_t count, size_t size)
{
    list = realloc(list, (count + 1) * size);
    if (list == NULL)
        stop("out of memory");
    return list;
}

static size_t least(size_t a, size_t b) { return a < b ? a : b; }

/* ---- the answer to a line, put together here and written when it is whole */

static struct {
    char *bytes;
    size_t length, room;
} answer;

static const char DIGITS[] = "0123456789ABCDEF";

static void put_bytes(const char *bytes, size_t count)
{
    if (answer.room - answer.length < count) {
        answer.room = 2 * (answer.length + count);
        answer.bytes = with_room(answer.bytes, answer.room, 1);
    }
    memcpy(answer.bytes + answer.length, bytes, count);
    answer.length += count;
}

static void put(const char *text) { put_bytes(text, strlen(text)); }

static void put_hex(uint64_t bits, size_t digits)
{
    char text[16];
    for (size_t i = 0; i < digits; i++)
        text[i] = DIGITS[bits >> 4 * (digits - 1 - i) & 15];
    put_bytes(text, digits);
}

static void put_whole(uint64_t n)
{
    char text[24];
    snprintf(text, sizeof text, "%llu", (unsigned long long)n);
    put(text);
}

/* A whole number behind a blank. */
static void put_count(uint64_t n)
{
    put(" ");
    put_whole(n);
}

/* A word, a whole number, the line's end. */
static void put_line(const char *word, uint64_t n)
{
    put(word);
    put_count(n);
    put("\n");
}

/* An f32 by its bits behind a blank; all NaNs are one. */
static void put_f32(float x)
{
    uint32_t bits;
    memcpy(&bits, &x, sizeof bits);
    put(" ");
    put_hex(x != x ? 0x7FC00000 : bits, 8);
}

/* `ok`, or the refusal. */
static void put_outcome(uint64_t number)
{
    if (number == SATINJACKS_ACCEPTED)
        put("ok\n");
    else
        put_line("refused", number);
}

static void put_if_spoiled(bool spoiled)
{
    if (spoiled)
        put("spoiled\n");
}

/* ---- the words of a line */

typedef struct {
    const char *at, *end; /* what is left: nothing, or a blank with a word behind it */
    bool good;            /* whether all words so far were what was asked for */
} Words;

typedef struct {
    const char *at;
    size_t length;
} Word;

static void turn_down(Words *w) { w->good = false; }

/* The bytes up to the next blank. Between two blanks there is an empty word, which nothing below takes for a number. */
static Word word_at(const char *at, const char *end)
{
    const char *blank = memchr(at, ' ', (size_t)(end - at));
    return (Word){at, (size_t)((blank ? blank : end) - at)};
}

static Word next_word(Words *w)
{
    if (w->at == w->end) {
        turn_down(w);
        return (Word){w->end, 0};
    }
    Word word = word_at(w->at + 1, w->end);
    w->at = word.at + word.length;
    return word;
}

static bool is(Word word, const char *text)
{
    return word.length == strlen(text) && memcmp(word.at, text, word.length) == 0;
}

/* Turns the line down if a word is left. */
static void no_more(Words *w)
{
    if (w->at != w->end)
        turn_down(w);
}

/* How many words are left: each has its blank. */
static size_t words_left(const Words *w)
{
    size_t count = 0;
    for (const char *p = w->at; p < w->end; p++)
        count += *p == ' ';
    return count;
}

/* The bits of a word of so many hexadecimal digits. */
static uint64_t hex(Words *w, size_t digits)
{
    Word word = next_word(w);
    uint64_t bits = 0;
    if (word.length != digits)
        turn_down(w);
    for (size_t i = 0; i < word.length && w->good; i++) {
        const char *digit = memchr(DIGITS, word.at[i], 16);
        if (digit == NULL)
            turn_down(w);
        else
            bits = bits << 4 | (uint64_t)(digit - DIGITS);
    }
    return bits;
}

/* The value of a word of 1 to `most` decimal digits; 19 are below 2^64. */
static uint64_t decimal(Words *w, Word word, size_t most)
{
    uint64_t n = 0;
    if (word.length == 0 || word.length > most)
        turn_down(w);
    for (size_t i = 0; i < word.length && w->good; i++) {
        if (word.at[i] < '0' || word.at[i] > '9')
            turn_down(w);
        n = 10 * n + (uint64_t)(word.at[i] - '0');
    }
    return n;
}

static uint32_t whole(Words *w)
{
    uint64_t n = decimal(w, next_word(w), 10);
    if (n > UINT32_MAX)
        turn_down(w);
    return (uint32_t)n;
}

static uint32_t flag(Words *w)
{
    uint32_t n = whole(w);
    if (n > 1)
        turn_down(w);
    return n;
}

static float f32(Words *w)
{
    uint32_t bits = (uint32_t)hex(w, 8);
    float x;
    memcpy(&x, &bits, sizeof x);
    return x;
}

static double f64(Words *w)
{
    uint64_t bits = hex(w, 16);
    double x;
    memcpy(&x, &bits, sizeof x);
    return x;
}

/* A whole cost, any number of 64 bits. */
static int64_t signed_whole(Words *w)
{
    Word word = next_word(w);
    bool minus = word.length > 0 && word.at[0] == '-';
    uint64_t size = decimal(w, (Word){word.at + minus, word.length - minus}, 19);
    if (size > (uint64_t)INT64_MAX + minus)
        turn_down(w);
    return (int64_t)(minus ? 0 - size : size);
}

/* ---- the tracker */

enum { TRACKS = 64 };

static SatinjacksTracker tracker;
static bool is_held;

/* The tracks that the table has. A loaded state's count may be larger. */
static size_t tracks_held(void) { return least(tracker.count, TRACKS); }

static SatinjacksSettings settings(Words *w)
{
    SatinjacksSettings s;
    s.det_thresh = f32(w);
    s.iou_threshold = f32(w);
    s.inertia = f32(w);
    s.max_age = whole(w);
    s.min_hits = whole(w);
    s.delta_t = whole(w);
    s.use_byte = flag(w);
    return s;
}

/* Whether all settings but the first are those that satinjacks_new sets. */
static bool are_usual(SatinjacksSettings s)
{
    return s.iou_threshold == 0.3f && s.inertia == 0.2f && s.max_age == 30 && s.min_hits == 3 && s.delta_t == 3 &&
           s.use_byte == 0;
}

/* By either making call, so that both are held against the original. */
static uint64_t make(SatinjacksSettings s)
{
    return are_usual(s) ? satinjacks_new(&tracker, s.det_thresh) : satinjacks_with_settings(&tracker, s);
}

static void answer_new(Words *w)
{
    SatinjacksSettings s = settings(w);
    no_more(w);
    if (!w->good)
        return;
    uint64_t number = make(s);
    is_held = number == SATINJACKS_ACCEPTED;
    put_outcome(number);
}

/* ---- frames */

/*
 * The buffers that are lent, larger than any answer. A line that names longer
 * ones is lent all of these: past 256 and 64 the length changes nothing.
 */
enum { BOXES = 2 * SATINJACKS_BOXES, IDS = 2 * SATINJACKS_IDS, BOX_BYTE = 0x4B, ID_BYTE = 0x5A };

static float boxes[BOXES];
static uint64_t ids[IDS];

typedef struct {
    size_t boxes_len, ids_len, input_len;
    const float *input;
} Frame;

/* The f32s that are left of a line, too many for a frame as well: to refuse them is the call's part. */
static const float *rest_f32(Words *w, size_t *count)
{
    static float *list;
    *count = words_left(w);
    list = with_room(list, *count, sizeof *list);
    for (size_t i = 0; i < *count; i++)
        list[i] = f32(w);
    return list;
}

static Frame frame(Words *w)
{
    Frame f;
    f.boxes_len = least(whole(w), BOXES);
    f.ids_len = least(whole(w), IDS);
    f.input = rest_f32(w, &f.input_len);
    return f;
}

static bool holds_only(unsigned char byte, const void *from, const void *end)
{
    for (const unsigned char *p = from; p < (const unsigned char *)end; p++)
        if (*p != byte)
            return false;
    return true;
}

/* Whether a call left the cells past its reports as they were filled, those that it was not lent too. */
static bool is_clean(SatinjacksReply reply)
{
    bool is_refused = reply.number != SATINJACKS_ACCEPTED;
    if (reply.count > (is_refused ? 0 : SATINJACKS_IDS))
        return false;
    return holds_only(BOX_BYTE, boxes + 4 * reply.count, boxes + BOXES) &&
           holds_only(ID_BYTE, ids + reply.count, ids + IDS);
}

static SatinjacksReply step(const Frame *f)
{
    memset(boxes, BOX_BYTE, sizeof boxes);
    memset(ids, ID_BYTE, sizeof ids);
    return satinjacks_update(&tracker, f->input, f->input_len, boxes, f->boxes_len, ids, f->ids_len);
}

static void put_reports(SatinjacksReply reply)
{
    put_line("ok", reply.count);
    for (size_t i = 0; i < least(reply.count, IDS); i++) {
        put_whole(ids[i]);
        for (size_t j = 0; j < 4; j++)
            put_f32(boxes[4 * i + j]);
        put("\n");
    }
}

/* The frame so many times: the last answer, and whether any of them spoiled a cell. */
static void put_steps(const Frame *f, uint32_t times)
{
    SatinjacksReply reply = {0, 0};
    bool spoiled = false;
    for (; times > 0; times--) {
        reply = step(f);
        spoiled |= !is_clean(reply);
    }
    if (reply.number == SATINJACKS_ACCEPTED)
        put_reports(reply);
    else
        put_outcome(reply.number);
    put_if_spoiled(spoiled);
}

static void answer_steps(Words *w, uint32_t times)
{
    Frame f = frame(w);
    if (times == 0)
        turn_down(w);
    if (!w->good)
        return;
    if (is_held)
        put_steps(&f, times);
    else
        put("no tracker\n");
}

static void answer_frame(Words *w) { answer_steps(w, 1); }
static void answer_repeat(Words *w) { answer_steps(w, whole(w)); }

/* ---- the state as text */

/* A line of a track behind its first. */
typedef struct {
    const char *name;
    size_t count;  /* how many numbers it shows */
    size_t floats; /* which of the track's floats is the first of them */
    size_t tag;    /* which of the track's words says whether they are there */
} Row;

#define FLOATS(field) (offsetof(SatinjacksTrackFloats, field) / sizeof(float))
#define TAG(field) (offsetof(SatinjacksTrackWords, field) / sizeof(uint32_t))
#define KEPT(i) {"kept" #i, 5, FLOATS(kept[i]), TAG(has_kept[i])}

/* ALWAYS is the number of no word. */
enum { ALWAYS = sizeof(SatinjacksTrackWords) / sizeof(uint32_t), ROWS = 16, NEWEST = ROWS - 1, LONGEST = 49 };

/* The tracker keeps no newest box of its own: it is the last one. */
static const Row rows[ROWS] = {
    {"x", 7, FLOATS(filter.x), ALWAYS},
    {"p", 49, FLOATS(filter.p), ALWAYS},
    {"sx", 7, FLOATS(saved.x), TAG(frozen)},
    {"sp", 49, FLOATS(saved.p), TAG(frozen)},
    {"last", 5, FLOATS(last), TAG(has_last)},
    {"list", 4, FLOATS(list), TAG(has_list)},
    {"dir", 2, FLOATS(direction), TAG(has_direction)},
    KEPT(0), KEPT(1), KEPT(2), KEPT(3), KEPT(4), KEPT(5), KEPT(6), KEPT(7),
    {"newest", 5, FLOATS(last), TAG(has_last)},
};

static float *floats_of(size_t track, const Row *row)
{
    return (float *)(void *)&tracker.floats[track] + row->floats;
}

static uint32_t *tag_of(size_t track, const Row *row)
{
    return (uint32_t *)(void *)&tracker.words[track] + row->tag;
}

static bool is_there(size_t track, const Row *row) { return row->tag == ALWAYS || *tag_of(track, row) != 0; }

/* A saved filter that isn't there has no line; anything else says `none`. */
static bool has_line(size_t track, const Row *row) { return row->tag != TAG(frozen) || is_there(track, row); }

static void put_row(size_t track, const Row *row)
{
    put(row->name);
    if (is_there(track, row))
        for (size_t i = 0; i < row->count; i++)
            put_f32(floats_of(track, row)[i]);
    else
        put(" none");
    put("\n");
}

static void put_track(size_t track)
{
    const SatinjacksTrackWords *words = &tracker.words[track];
    const uint64_t head[] = {tracker.id[track], words->age, words->streak, words->since, words->frozen};
    put("track");
    for (size_t i = 0; i < sizeof head / sizeof *head; i++)
        put_count(head[i]);
    put("\n");
    for (const Row *row = rows; row < rows + ROWS; row++)
        if (has_line(track, row))
            put_row(track, row);
}

static void put_state(void)
{
    put("state");
    put_count(tracker.frames);
    put_count(tracker.issued);
    put_count(tracker.count);
    put("\n");
    for (size_t track = 0; track < tracks_held(); track++)
        put_track(track);
    put("end\n");
}

/* FNV-1a of the answer so far, put in its place. */
static void put_hash(void)
{
    uint64_t hash = 0xCBF29CE484222325;
    for (size_t i = 0; i < answer.length; i++)
        hash = (hash ^ (unsigned char)answer.bytes[i]) * 0x100000001B3;
    answer.length = 0;
    put_hex(hash, 16);
    put("\n");
}

static void answer_state(Words *w)
{
    no_more(w);
    if (is_held)
        put_state();
    else
        put("no tracker\n");
}

static void answer_hash(Words *w)
{
    answer_state(w);
    if (is_held)
        put_hash();
}

/* ---- a state that is loaded, straight into the tracker's place: a load drops what was held */

static struct {
    bool is_open; /* lines of it are still to come */
    bool good;
    size_t track; /* whose lines come next */
    size_t row;   /* which of them; ROWS for the first line of a track, or the end */
} load;

static void answer_load(Words *w)
{
    SatinjacksSettings s = settings(w);
    memset(&tracker, 0, sizeof tracker);
    tracker.det_thresh = s.det_thresh;
    tracker.iou_threshold = s.iou_threshold;
    tracker.inertia = s.inertia;
    tracker.max_age = s.max_age;
    tracker.min_hits = s.min_hits;
    tracker.delta_t = s.delta_t;
    tracker.use_byte = s.use_byte;
    tracker.frames = whole(w);
    tracker.issued = whole(w);
    tracker.count = whole(w);
    no_more(w);
    is_held = false;
    load.is_open = true;
    load.good = w->good;
    load.track = 0;
    load.row = ROWS;
    w->good = true; /* what is wrong with a load is said at its end */
}

static void load_head(Words *w)
{
    SatinjacksTrackWords *words = &tracker.words[load.track];
    tracker.id[load.track] = whole(w);
    words->age = whole(w);
    words->streak = whole(w);
    words->since = whole(w);
    words->frozen = flag(w);
}

/* The numbers of a row to their place, or `none`. A newest box has to be one, and is passed over. */
static void load_row(Words *w, const Row *row)
{
    float numbers[LONGEST];
    bool is_optional = row->tag != ALWAYS && row->tag != TAG(frozen);
    if (is_optional && w->at != w->end && is(word_at(w->at + 1, w->end), "none")) {
        next_word(w);
        return;
    }
    for (size_t i = 0; i < row->count; i++)
        numbers[i] = f32(w);
    if (row == &rows[NEWEST])
        return;
    memcpy(floats_of(load.track, row), numbers, row->count * sizeof *numbers);
    if (is_optional)
        *tag_of(load.track, row) = 1;
}

/* On to the next line that this track has; behind its last one to the next track. */
static void load_on(void)
{
    load.row = load.row == ROWS ? 0 : load.row + 1;
    while (load.row < ROWS && !has_line(load.track, &rows[load.row]))
        load.row++;
    if (load.row == ROWS)
        load.track++;
}

static void load_line(Word name, Words *w)
{
    bool is_head = load.row == ROWS;
    if (load.track == TRACKS || !is(name, is_head ? "track" : rows[load.row].name)) {
        load.good = false;
        return;
    }
    if (is_head)
        load_head(w);
    else
        load_row(w, &rows[load.row]);
    no_more(w);
    load.good = w->good;
    load_on();
}

/* Whether the lines so far are a whole state. It is held then, sound or not. */
static bool load_end(void)
{
    load.is_open = false;
    is_held = load.good && load.row == ROWS && load.track == tracks_held();
    return is_held;
}

/* ---- assignments */

/* The lists that are lent, longer than any n. A line that names longer ones is lent all of these: refused alike. */
enum { MARKS = 128, MARK = 77 };

static int64_t x[MARKS], y[MARKS];

typedef struct {
    size_t n, x_len, y_len;
} Sizes;

static Sizes sizes(Words *w)
{
    Sizes s;
    s.n = whole(w);
    s.x_len = least(whole(w), MARKS);
    s.y_len = least(whole(w), MARKS);
    return s;
}

static void fill_lists(void)
{
    for (size_t i = 0; i < MARKS; i++)
        x[i] = y[i] = MARK;
}

static void put_marks(const char *name, const int64_t *marks, size_t n)
{
    put(name);
    for (size_t i = 0; i < n; i++) {
        char text[24];
        snprintf(text, sizeof text, " %lld", (long long)marks[i]);
        put(text);
    }
    put("\n");
}

/* Whether a call left the cells from a place on as they were filled. */
static bool are_filled(size_t from)
{
    for (size_t i = from; i < MARKS; i++)
        if (x[i] != MARK || y[i] != MARK)
            return false;
    return true;
}

/* The lists of an accepted call; a refused one writes none. */
static void put_pairs(uint64_t number, size_t n)
{
    bool is_accepted = number == SATINJACKS_ACCEPTED;
    size_t written = is_accepted ? least(n, MARKS) : 0;
    if (is_accepted) {
        put_marks("x", x, written);
        put_marks("y", y, written);
    }
    put_if_spoiled(!are_filled(written));
}

static void answer_costs(Words *w, bool with_reads)
{
    static double *costs;
    Sizes s = sizes(w);
    size_t count = words_left(w);
    costs = with_room(costs, count, sizeof *costs);
    for (size_t i = 0; i < count; i++)
        costs[i] = f64(w);
    if (!w->good)
        return;
    fill_lists();
    SatinjacksAssignReply reply = satinjacks_assign(s.n, costs, count, x, s.x_len, y, s.y_len);
    put_outcome(reply.number);
    if (with_reads)
        put_line("reads", reply.reads);
    put_pairs(reply.number, s.n);
}

static void answer_lap(Words *w) { answer_costs(w, false); }
static void answer_lapreads(Words *w) { answer_costs(w, true); }

static void answer_lapint(Words *w)
{
    static int64_t *costs;
    Sizes s = sizes(w);
    size_t count = words_left(w);
    costs = with_room(costs, count, sizeof *costs);
    for (size_t i = 0; i < count; i++)
        costs[i] = signed_whole(w);
    if (!w->good)
        return;
    fill_lists();
    uint64_t number = satinjacks_assign_whole(s.n, costs, count, x, s.x_len, y, s.y_len);
    put_outcome(number);
    put_pairs(number, s.n);
}

static void answer_shortcuts(Words *w)
{
    uint32_t rows_asked = whole(w);
    uint32_t columns_asked = whole(w);
    no_more(w);
    if (!w->good)
        return;
    SatinjacksShortcuts counts = satinjacks_shortcuts(rows_asked, columns_asked);
    put_whole(counts.shortcut);
    put_count(counts.assignment);
    put("\n");
}

/* ---- line after line */

static const struct {
    const char *word;
    void (*answer)(Words *); /* puts the answer, or turns the line down */
} offered[] = {
    {"new", answer_new},
    {"frame", answer_frame},
    {"repeat", answer_repeat},
    {"state", answer_state},
    {"hash", answer_hash},
    {"load", answer_load},
    {"lap", answer_lap},
    {"lapreads", answer_lapreads},
    {"lapint", answer_lapint},
    {"shortcuts", answer_shortcuts},
};

/* The rest of that page: the functions that these lines ask are not exported. */
static const char *const others[] = {"sqrt", "acos", "clamp", "max", "min", "widen", "product", "inverse", "iou",
                                     "measure", "box", "dir", "predict", "update", "replay", "assoc"};

/* What is said of a line that can't be read, in place of what was put of its answer. */
static void put_error(uint64_t number, const char *why)
{
    answer.length = 0;
    put("error: line ");
    put_whole(number);
    put(": ");
    put(why);
    put("\n");
}

static void answer_word(Word word, Words *w, uint64_t number)
{
    for (size_t i = 0; i < sizeof offered / sizeof *offered; i++)
        if (is(word, offered[i].word)) {
            offered[i].answer(w);
            if (!w->good)
                put_error(number, "bad numbers");
            return;
        }
    for (size_t i = 0; i < sizeof others / sizeof *others; i++)
        if (is(word, others[i])) {
            put("?\n");
            return;
        }
    put_error(number, "no such line");
}

/* Puts the answer to a line: nothing to an empty one, a remark, or one of a load. */
static void answer_line(const char *line, size_t length, uint64_t number)
{
    Word all = {line, length};
    Word first = word_at(line, line + length);
    Words rest = {line + first.length, line + length, true};
    if (length == 0 || line[0] == '#')
        return;
    if (!load.is_open)
        answer_word(first, &rest, number);
    else if (!is(all, "end")) {
        if (load.good)
            load_line(first, &rest);
    } else if (!load_end())
        put_error(number, "bad state");
}

/* Hands the answer over at once: whoever asked may wait for it before the next line. */
static void write_answer(void)
{
    if (fwrite(answer.bytes, 1, answer.length, stdout) != answer.length || fflush(stdout) != 0)
        stop("standard output can't be written");
    answer.length = 0;
}

int main(void)
{
    char *line = NULL;
    size_t room = 0;
    ssize_t length;
    for (uint64_t number = 1; (length = getline(&line, &room, stdin)) > 0; number++) {
        answer_line(line, (size_t)length - (line[length - 1] == '\n'), number);
        if (answer.length > 0)
            write_answer();
    }
    if (!feof(stdin))
        stop("standard input can't be read");
    return 0;
}
