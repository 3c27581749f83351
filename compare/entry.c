/* entry FILE..: asks the C entry about the pairs of each review file that is a LEFT, a RIGHT, PAIRs and END, and
   compares its answers and the runs for the moves with what they must be. Prints the number of calls. */
#include "pair_verdict.h"
#include "threads.h"

#include <stdio.h>
#include <stdlib.h>
#include <string.h>

enum { MOST_PAIRS_ASKED = 60, MARGIN = 16, MOST_RUN = 2 * MOST_MOVES + 64 };

static struct thread threads[2];
static struct search search;
static const uint8_t *listings[2];
static size_t sizes[2];
static int refused; /* what every call with these two listings answers, or 0 */
static uint8_t before[MARGIN + MOST_RUN + MARGIN], after[sizeof before];
static long calls;
static const char *name;

static void wrong(uint32_t a, uint32_t b, size_t size, const char *what, long long wanted, long long has)
{
    printf("%s: pair %lu %lu, %lu bytes for moves: %s: wants %lld, has %lld\n", name, (unsigned long)a,
        (unsigned long)b, (unsigned long)size, what, wanted, has);
    exit(1);
}

/* The answer where there is room for all moves */
static int answer_for(uint32_t a, uint32_t b)
{
    if (refused)
        return refused;
    if (a >= (uint32_t)threads[0].locations || b >= (uint32_t)threads[1].locations)
        return PAIR_VERDICT_REFUSED_NO_SUCH_LOCATION;
    return least_moves(&search, a, b);
}

static void call(uint32_t a, uint32_t b, size_t size)
{
    uint16_t moves[MOST_MOVES];
    int wanted = answer_for(a, b);
    size_t written = 0;
    if (wanted > 0 && (size_t)wanted > size / 2)
        wanted = PAIR_VERDICT_REFUSED_RUN_TOO_SHORT;
    memcpy(after, before, sizeof before);
    /* every other run of no bytes is handed in as NULL */
    int null = calls++ % 2;
    int64_t has = pair_verdict(null && !sizes[0] ? NULL : listings[0], sizes[0],
        null && !sizes[1] ? NULL : listings[1], sizes[1], a, b, null && !size ? NULL : after + MARGIN, size);
    if (has != wanted)
        wrong(a, b, size, "answer", wanted, (long long)has);
    if (wanted > 0) {
        written = 2 * (size_t)wanted;
        for (int i = 0; i < wanted; i++)
            moves[i] = (uint16_t)(after[MARGIN + 2 * i] * 256 + after[MARGIN + 2 * i + 1]);
        if (!replays(&threads[0], &threads[1], moves, wanted, a, b))
            wrong(a, b, size, "moves that lead there", 1, 0);
    }
    for (size_t i = 0; i < sizeof after; i++)
        if ((i < MARGIN || i >= MARGIN + written) && after[i] != before[i])
            wrong(a, b, size, "a byte that is not written", before[i], after[i]);
}

static void calls_of_pair(uint32_t a, uint32_t b)
{
    int n = answer_for(a, b);
    size_t needed = n > 0 ? 2 * (size_t)n : 0;
    call(a, b, 2 * MOST_MOVES);
    call(a, b, needed);
    call(a, b, needed + 1);
    if (needed) {
        call(a, b, needed - 1);
        call(a, b, needed - 2);
        call(a, b, 0);
        call(a, b, 1);
    }
    call(a, b, 2 * MOST_MOVES + 1 + calls % 40);
}

/* Where the pairs begin, or 0 if the file is not of the form that is asked about. */
static size_t parts(const uint8_t *bytes, size_t size)
{
    size_t i = 0;
    for (int side = 0; side < 2; side++) {
        if (size - i < 3 || bytes[i] != 0x10 + side)
            return 0;
        sizes[side] = (size_t)(bytes[i + 1] * 256 + bytes[i + 2]);
        if (size - i - 3 < sizes[side])
            return 0;
        listings[side] = bytes + i + 3;
        i += 3 + sizes[side];
    }
    if (i == size || (size - i) % 5 != 1 || bytes[size - 1] != 0x1f)
        return 0;
    for (size_t k = i; k + 1 < size; k += 5)
        if (bytes[k] != 0x12)
            return 0;
    return i;
}

/* the listings in space of their own, so that reading past one can be found */
static void own_space(int side)
{
    uint8_t *own = (uint8_t *)malloc(sizes[side] ? sizes[side] : 1);
    if (!own)
        exit(2);
    memcpy(own, listings[side], sizes[side]);
    listings[side] = own;
}

static int refusal_of_two(void)
{
    struct refusal r = {0, 0};
    for (int side = 0; side < 2 && !r.number; side++)
        r = read_listing(&threads[side], listings[side], sizes[side]);
    for (int side = 0; side < 2 && !r.number; side++)
        r = summarise(&threads[side], NULL);
    return r.number ? -(100 + r.number) : 0;
}

static void one_file(void)
{
    size_t size;
    uint8_t *bytes = read_file(name, &size);
    size_t from = parts(bytes, size);
    if (from) {
        long pairs = (long)(size - 1 - from) / 5, step = pairs / MOST_PAIRS_ASKED + 1;
        uint8_t *listings_before[2] = {(uint8_t *)listings[0], (uint8_t *)listings[1]};
        own_space(0);
        own_space(1);
        refused = refusal_of_two();
        if (!refused)
            search_both(&search, &threads[0], &threads[1]);
        uint32_t a = 0, b = 0;
        for (long k = 0; k < pairs; k += step) {
            const uint8_t *pair = bytes + from + 5 * k;
            a = (uint32_t)(pair[1] * 256 + pair[2]);
            b = (uint32_t)(pair[3] * 256 + pair[4]);
            calls_of_pair(a, b);
        }
        calls_of_pair(a + 65536, b);
        calls_of_pair(a, UINT32_MAX);
        calls_of_pair(0x80000000u + a, b + 512);
        for (int side = 0; side < 2; side++) {
            if (memcmp(listings[side], listings_before[side], sizes[side]))
                wrong(a, b, 0, "a listing as it was", 1, 0);
            free((void *)listings[side]);
        }
        if (!refused)
            search_end(&search);
    }
    free(bytes);
}

int main(int count, char **names)
{
    for (size_t i = 0; i < sizeof before; i++)
        before[i] = (uint8_t)(0xa5 + 7 * i);
    for (int i = 1; i < count; i++) {
        name = names[i];
        one_file();
    }
    printf("%ld\n", calls);
    return 0;
}
