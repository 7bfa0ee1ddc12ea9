/*
 * How much stack the exported calls need: each runs in a thread whose stack is filled with a pattern beforehand; what
 * is overwritten afterwards, less what an empty thread overwrites, is what the call needed. The frames have steady
 * and crowded scenes, births, misses and replays; the costs are random and tied.
 */
#include <pthread.h>
#include <stdio.h>
#include <stdlib.h>
#include <string.h>

#include "satinjacks.h"

#define STACK (2u * 1024 * 1024)
#define PATTERN 0xA5

static unsigned char *stack;
static SatinjacksTracker tracker;
static size_t objects;
static float input[320], boxes[256];
static uint64_t ids[64], refusal;
static double costs[64 * 64];
static int64_t units[64 * 64], x[64], y[64];

static void *nothing(void *unused)
{
    return unused;
}

static void *make(void *unused)
{
    refusal = satinjacks_new(&tracker, 0.5f);
    return unused;
}

static void *make_with_settings(void *unused)
{
    refusal = satinjacks_with_settings(&tracker, (SatinjacksSettings){0.5f, 0.3f, 0.2f, 30, 3, 3, 1});
    return unused;
}

static void *update(void *unused)
{
    refusal = satinjacks_update(&tracker, input, 5 * objects, boxes, 256, ids, 64).number;
    return unused;
}

static void *assign(void *unused)
{
    refusal = satinjacks_assign(64, costs, 64 * 64, x, 64, y, 64).number;
    return unused;
}

static void *assign_whole(void *unused)
{
    refusal = satinjacks_assign_whole(64, units, 64 * 64, x, 64, y, 64);
    return unused;
}

static void *count_shortcuts(void *unused)
{
    refusal = satinjacks_shortcuts(4, 4).shortcut == 208 ? SATINJACKS_ACCEPTED : 1;
    return unused;
}

static size_t needed(void *(*call)(void *))
{
    pthread_attr_t attributes;
    pthread_t thread;
    size_t untouched = 0;
    memset(stack, PATTERN, STACK);
    refusal = 0;
    if (pthread_attr_init(&attributes) || pthread_attr_setstack(&attributes, stack, STACK) ||
        pthread_create(&thread, &attributes, call, NULL) || pthread_join(thread, NULL)) {
        fputs("stack: no thread\n", stderr);
        exit(1);
    }
    if (refusal) {
        fprintf(stderr, "stack: refused with %u\n", (unsigned)refusal);
        exit(1);
    }
    while (untouched < STACK && stack[untouched] == PATTERN) untouched++;
    return STACK - untouched;
}

static float jitter(void)
{
    return 3.0f * (float)rand() / (float)RAND_MAX;
}

static void scene(int crowded, int frame)
{
    for (size_t i = 0; i < objects; i++) {
        float *o = input + 5 * i;
        o[0] = (crowded ? 18.0f * (float)i : 200.0f * (float)(i % 8)) + jitter();
        o[1] = (crowded ? 200.0f : 200.0f * (float)(i / 8)) + jitter();
        o[2] = 40.0f;
        o[3] = 60.0f;
        /* every other object is hidden for three frames, and spare in the fourth */
        o[4] = i % 2 && frame % 12 < 3 ? 0.0f : i % 2 && frame % 12 == 3 ? 0.3f : 0.9f;
    }
}

static size_t larger(size_t a, size_t b)
{
    return a > b ? a : b;
}

int main(void)
{
    size_t empty, frame = 0, floats = 0, whole = 0;
    stack = aligned_alloc(4096, STACK);
    if (!stack) return 1;
    empty = needed(nothing);
    printf("satinjacks_new: %zu bytes of stack\n", needed(make) - empty);
    printf("satinjacks_with_settings: %zu\n", needed(make_with_settings) - empty);
    for (int crowded = 0; crowded < 2; crowded++) {
        for (objects = 0; objects <= 64; objects += 16) {
            needed(make_with_settings);
            for (int f = 0; f < 60; f++) {
                scene(crowded, f);
                frame = larger(frame, needed(update) - empty);
            }
        }
    }
    printf("satinjacks_update: %zu\n", frame);
    for (int kinds = 1; kinds <= 1000000; kinds *= 10) {
        for (size_t k = 0; k < 64 * 64; k++) costs[k] = (double)(units[k] = rand() % kinds);
        floats = larger(floats, needed(assign) - empty);
        whole = larger(whole, needed(assign_whole) - empty);
    }
    printf("satinjacks_assign: %zu\nsatinjacks_assign_whole: %zu\n", floats, whole);
    printf("satinjacks_shortcuts: %zu\n", needed(count_shortcuts) - empty);
    return 0;
}
