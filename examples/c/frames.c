/* Three frames of one animal, a frame without it, a refusal, an assignment, and how often the shortcut runs. */
#include "satinjacks.h"

#include <stdio.h>
#include <string.h>

static SatinjacksTracker tracker, before;
static float boxes[SATINJACKS_BOXES];
static uint64_t ids[SATINJACKS_IDS];

static void show(const float *input, size_t len)
{
    SatinjacksReply r = satinjacks_update(&tracker, input, len, boxes, SATINJACKS_BOXES, ids, SATINJACKS_IDS);
    printf("frame %u: refusal %llu, reports %zu\n", tracker.frames, (unsigned long long)r.number, r.count);
    for (size_t k = 0; k < r.count; k++)
        printf("  id %llu at %g, %g, %g by %g\n", (unsigned long long)ids[k],
               boxes[4 * k], boxes[4 * k + 1], boxes[4 * k + 2], boxes[4 * k + 3]);
}

int main(void)
{
    if (satinjacks_new(&tracker, 0.5f) != SATINJACKS_ACCEPTED)
        return 1;
    float animal[5] = {0, 0, 64, 64, 0.9f};
    for (int k = 0; k < 3; k++) {
        show(animal, 5);
        animal[0] += 4;
    }
    show(animal, 0);

    before = tracker;
    show(animal, 4); /* no multiple of 5 */
    if (memcmp(&before, &tracker, sizeof tracker) != 0)
        return 1;

    double cost[4] = {4, 1, 2, 3};
    int64_t x[2], y[2];
    SatinjacksAssignReply a = satinjacks_assign(2, cost, 4, x, 2, y, 2);
    if (a.number != SATINJACKS_ACCEPTED)
        return 1;
    printf("row 0 takes column %lld, row 1 column %lld, after %zu reads\n", (long long)x[0], (long long)x[1], a.reads);

    /* by whole costs the pairing is a cheapest one */
    int64_t units[4] = {-3, 7, 2, 1000001};
    uint64_t number = satinjacks_assign_whole(2, units, 4, x, 2, y, 2);
    printf("a cost of %lld: refused with %llu\n", (long long)units[3], (unsigned long long)number);
    units[3] = 11;
    if (satinjacks_assign_whole(2, units, 4, x, 2, y, 2) != SATINJACKS_ACCEPTED)
        return 1;
    printf("row 0 takes column %lld, row 1 column %lld\n", (long long)x[0], (long long)x[1]);

    SatinjacksShortcuts s = satinjacks_shortcuts(2, 2);
    printf("2 by 2: %llu patterns take the shortcut, %llu go to the assignment\n",
           (unsigned long long)s.shortcut, (unsigned long long)s.assignment);
    return 0;
}
