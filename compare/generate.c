/* generate SEED COUNT FOLDER: writes review files to compare with, COUNT of them at random and the others always. */
#include "threads.h"
#include "writing.h"

#include <stdio.h>
#include <stdlib.h>
#include <string.h>

static uint64_t seed;

static uint32_t random_bits(void)
{
    seed ^= seed >> 12;
    seed ^= seed << 25;
    seed ^= seed >> 27;
    return (uint32_t)((seed * 0x2545f4914f6cdd1dull) >> 32);
}

static int below(int n) { return (int)(random_bits() % (uint32_t)n); }
static int between(int least, int most) { return least + below(most - least + 1); }
static int chance(int percent) { return below(100) < percent; }

static void put_run(struct run *run, const struct run *more)
{
    memcpy(run->bytes + run->size, more->bytes, (size_t)more->size);
    run->size += more->size;
}

static const char *folder;
static int files;

static void save(const struct run *run, const char *kind)
{
    char name[4096];
    snprintf(name, sizeof name, "%s/%05d-%s", folder, files++, kind);
    FILE *f = fopen(name, "wb");
    if (!f || fwrite(run->bytes, 1, (size_t)run->size, f) != (size_t)run->size || fclose(f)) {
        perror(name);
        exit(2);
    }
}

/* Listings */

static struct run left, right, file, other;

/* the locks held are four bits each, the last taken lowest; target -1: not yet chosen */
struct command { int byte, lock, t, u; uint64_t held; };

static struct command commands[MOST_COMMANDS];

static int is_held(uint64_t held, int lock)
{
    for (; held; held >>= 4)
        if ((int)(held & 15) == lock + 1)
            return 1;
    return 0;
}

static int depth_of(uint64_t held)
{
    int depth = 0;
    for (; held; held >>= 4)
        depth++;
    return depth;
}

/* a command that is reached with the same locks, or now and then any */
static int target(int count, uint64_t held, int wild)
{
    if (!chance(wild))
        for (int tries = 0; tries < 50; tries++) {
            int t = below(count);
            if (commands[t].held == held)
                return t;
        }
    return below(count);
}

/* How a random listing is made: which locks, how deep; and in percent jumps to anywhere, wrong gives, commands with
   locks, and branches among the other commands. */
struct style { const int *locks; int lock_count, most_depth, wild, unnested, locking, branching; };

static void random_lock(struct command *c, uint64_t *held, const struct style *style)
{
    int depth = depth_of(*held);
    c->byte = depth == 0 || (depth < style->most_depth && chance(55)) ? 2 : 3;
    for (int tries = 0; c->byte == 2 && is_held(*held, c->lock) && tries < 6; tries++)
        c->lock = style->locks[below(style->lock_count)];
    if (c->byte == 2 && is_held(*held, c->lock) && !chance(style->wild))
        c->byte = 3;
    if (c->byte == 2 && !is_held(*held, c->lock))
        *held = *held << 4 | (uint64_t)(c->lock + 1);
    else if (c->byte == 3 && !chance(style->unnested)) {
        c->lock = (int)(*held & 15) - 1;
        *held >>= 4;
    }
}

static void random_listing(struct run *l, int count, struct style style)
{
    int open[MOST_COMMANDS], opened = 0; /* branches without their second target */
    uint64_t held = 0;
    for (int i = 0; i < count; i++) {
        struct command *c = &commands[i];
        *c = (struct command){1, style.locks[below(style.lock_count)], -1, -1, held};
        if (i == count - 1)
            c->byte = chance(40) ? 0 : between(4, 5);
        else if (chance(style.locking))
            random_lock(c, &held, &style);
        else if (chance(style.branching)) {
            c->byte = 5;
            c->t = i + 1;
            open[opened++] = i;
        } else if (chance(40) && (opened || chance(style.wild))) {
            c->byte = chance(75) ? 4 : 0;
            if (opened) { /* what comes next is a branch's second target */
                int k = below(opened), from = open[k];
                open[k] = open[--opened];
                commands[from].u = i + 1;
                held = commands[from].held;
            }
        }
    }
    empty(l);
    for (int i = 0; i < count; i++) {
        struct command *c = &commands[i];
        int t = c->t < 0 || chance(style.wild) ? target(count, c->held, style.wild) : c->t;
        int u = c->u < 0 ? target(count, c->held, style.wild) : c->u;
        switch (c->byte) {
        case 0: stop(l); break;
        case 1: pass(l, 1); break;
        case 2: take(l, c->lock); break;
        case 3: give(l, c->lock); break;
        case 4: go_to(l, t); break;
        default: if (chance(50)) either(l, t, u); else either(l, u, t);
        }
    }
}

static void spoil_listing(struct run *l)
{
    int at = l->size ? below(l->size) : 0;
    switch (below(6)) {
    case 0: l->size = at; break;
    case 1: l->bytes[at] = (uint8_t)below(256); break;
    case 2: l->bytes[at] = (uint8_t)below(10); break;
    case 3: put(l, between(0, 6)); break;
    case 4: l->size -= l->size > 0; break;
    default: pass(l, 1);
    }
}

static int commands_of(const struct run *l)
{
    static struct thread thread;
    return read_listing(&thread, l->bytes, (size_t)l->size).number ? 8 : thread.locations;
}

static int is_refused(const struct run *l)
{
    static struct thread thread;
    return read_listing(&thread, l->bytes, (size_t)l->size).number || summarise(&thread, NULL).number;
}

/* Review files */

static void put_threads(void)
{
    empty(&file);
    put(&file, 0x10); put2(&file, left.size); put_run(&file, &left);
    put(&file, 0x11); put2(&file, right.size); put_run(&file, &right);
}

static void put_names(const int *names)
{
    put(&file, 0x13);
    for (int i = 0; i < 8; i++)
        put(&file, names[i]);
}

static void put_pair(int a, int b) { put(&file, 0x12); put2(&file, a); put2(&file, b); }
static void put_end(void) { put(&file, 0x1f); }

static void random_names(void)
{
    int names[8];
    for (int i = 0; i < 8; i++) {
        int k = below(i + 1);
        names[i] = names[k];
        names[k] = i;
    }
    if (chance(15))
        names[below(8)] = below(8);
    if (chance(10))
        names[below(8)] = between(0, 255);
    put_names(names);
}

static int missing(int count)
{
    switch (below(5)) {
    case 0: return count;
    case 1: return 65535;
    case 2: return 256 * between(1, 255);
    default: return count + below(600);
    }
}

static void random_pairs(int n)
{
    int a = commands_of(&left), b = commands_of(&right);
    while (n-- > 0)
        put_pair(chance(4) ? missing(a) : below(a), chance(4) ? missing(b) : below(b));
}

static void all_pairs(void)
{
    int a = commands_of(&left), b = commands_of(&right), border = chance(30);
    for (int i = 0; i < a + border; i++)
        for (int k = 0; k < b + border; k++)
            put_pair(i, k);
}

static void small(void)
{
    int locks[8];
    struct style style = {locks, between(2, 3), between(1, 3), chance(30) ? 12 : 0, chance(10) ? 10 : 0,
        between(50, 90), between(20, 70)};
    for (int i = 0; i < 8; i++)
        locks[i] = chance(50) ? i : below(8);
    if (chance(8)) { /* deep */
        style.lock_count = 7;
        style.most_depth = between(4, 6);
        style.locking = 85;
        for (int i = 0; i < 8; i++)
            locks[i] = i;
    }
    random_listing(&left, between(1, 14), style);
    random_listing(&right, between(1, 14), style);
    if (chance(4))
        spoil_listing(&left);
    if (chance(4))
        spoil_listing(&right);
    put_threads();
    if (chance(30))
        random_names();
    if (chance(75))
        all_pairs();
    else
        random_pairs(below(30));
    put_end();
    save(&file, "small");
}

/* many locations and histories, a few with more states than there may be */
static void larger(int most)
{
    int locks[8] = {0, 1, 2, 3, 4, 5, 6, 7}, tries = 0, accepted = chance(90);
    struct style style = {locks, between(2, 5), between(1, 4), chance(30) ? 3 : 0, 0, between(10, 70), between(20, 70)};
    do
        random_listing(&left, between(15, most), style);
    while (accepted && is_refused(&left) && ++tries < 200);
    do
        random_listing(&right, between(15, most), style);
    while (accepted && is_refused(&right) && ++tries < 400);
    put_threads();
    if (chance(30))
        random_names();
    if (commands_of(&left) * commands_of(&right) < 1500 && chance(50))
        all_pairs();
    else
        random_pairs(between(20, 400));
    put_end();
    save(&file, most > 100 ? "large" : "middle");
}

/* locks kept, and between them locks that may be taken and given back: many histories at one location */
static void crowded_listing(struct run *l, int lock_count, int items)
{
    int kept[MOST_HELD], depth = 0, n = 0;
    empty(l);
    for (int i = 0; i < items; i++) {
        int k = below(lock_count), roll = below(100), free = 1;
        for (int d = 0; d < depth; d++)
            free &= kept[d] != k;
        if (free && depth < MOST_HELD && roll < 30) {
            take(l, kept[depth++] = k);
            n += 1;
        } else if (free && depth < MOST_HELD && roll < 80) {
            if (chance(50)) either(l, n + 1, n + 3); else either(l, n + 3, n + 1);
            take(l, k); give(l, k);
            n += 3;
        } else if (depth > 0 && roll < 90) {
            give(l, kept[--depth]);
            n += 1;
        } else {
            pass(l, 1);
            n += 1;
        }
    }
    if (chance(25))
        go_to(l, below(n + 1));
    else
        stop(l);
}

static void crowded(void)
{
    int lock_count = between(3, 6), items = between(5, 14);
    do
        crowded_listing(&left, lock_count, items);
    while (is_refused(&left) && !chance(5));
    do
        crowded_listing(&right, lock_count, items);
    while (is_refused(&right) && !chance(5));
    put_threads();
    if (chance(20))
        random_names();
    all_pairs();
    put_end();
    save(&file, "crowded");
}

/* bytes changed, dropped and put in anywhere */
static void torn(void)
{
    int locks[8] = {0, 1, 2, 3, 4, 5, 6, 7};
    struct style style = {locks, 2, 2, 5, 2, 60, 50};
    random_listing(&left, between(1, 6), style);
    random_listing(&right, between(1, 6), style);
    put_threads();
    if (chance(60))
        random_names();
    random_pairs(below(6));
    put_end();
    static const int bytes[] = {0x10, 0x11, 0x12, 0x13, 0x1f, 0, 1, 2, 3, 4, 5, 7, 8, 255};
    for (int n = between(1, 3); n > 0 && file.size > 0; n--) {
        int at = below(file.size), byte = chance(60) ? bytes[below(14)] : below(256);
        switch (below(5)) {
        case 0: file.size = at; break;
        case 1: put(&file, byte); break;
        case 2:
            memmove(file.bytes + at + 1, file.bytes + at, (size_t)(file.size++ - at));
            file.bytes[at] = (uint8_t)byte;
            break;
        case 3:
            memmove(file.bytes + at, file.bytes + at + 1, (size_t)(--file.size - at));
            break;
        default: file.bytes[at] = (uint8_t)byte;
        }
    }
    save(&file, "torn");
}

/* One file cut at every length, with each byte changed, and with bytes after it */
static void around(void)
{
    static const uint8_t to[] = {0, 1, 2, 3, 4, 5, 6, 7, 8, 9, 0x0f, 0x10, 0x11, 0x12, 0x13, 0x14, 0x1e, 0x1f, 0x20,
        0x7f, 0x80, 0xfe, 0xff};
    save(&file, "whole");
    other = file;
    for (int n = 0; n < other.size; n++) {
        file.size = n;
        save(&file, "cut");
    }
    file = other;
    for (int at = 0; at < other.size; at++) {
        for (size_t i = 0; i < sizeof to; i++)
            if (to[i] != other.bytes[at]) {
                file.bytes[at] = to[i];
                save(&file, "changed");
            }
        file.bytes[at] = other.bytes[at];
    }
    for (size_t i = 0; i < sizeof to; i++) {
        file.size = other.size;
        put(&file, to[i]);
        save(&file, "longer");
        put(&file, to[i]);
        save(&file, "longer");
    }
    file = other;
}

static void listing_a(struct run *l) { empty(l); take(l, 0); take(l, 1); give(l, 1); stop(l); }
static void listing_b(struct run *l) { empty(l); take(l, 1); take(l, 0); give(l, 0); stop(l); }

static void listing_c(struct run *l)
{
    empty(l);
    take(l, 0); either(l, 2, 5); take(l, 1); give(l, 1); go_to(l, 5); stop(l);
}

static void worked(void)
{
    static const int straight[8] = {0, 1, 2, 3, 4, 5, 6, 7}, crossed[8] = {1, 0, 7, 6, 5, 4, 3, 2};
    listing_a(&left);
    listing_b(&right);
    put_threads();
    put_pair(3, 1); put_pair(3, 3); put_pair(9, 0);
    put_end();
    around();
    put_threads();
    put_names(crossed);
    put_pair(3, 1); put_pair(3, 3);
    put_end();
    around();
    for (int i = 0; i < 3; i++) {
        listing_c(&left);
        put_threads();
        if (i)
            put_names(i == 1 ? straight : crossed);
        all_pairs();
        put_end();
        save(&file, "worked");
    }
}

/* Listings at a bound of theirs, each on both sides */
static void both_sides(void)
{
    for (int side = 0; side < 3; side++) {
        other = left;
        if (side < 2)
            listing_b(side == 0 ? &right : &left);
        if (side > 0)
            right = other;
        put_threads();
        random_pairs(20);
        put_end();
        save(&file, "bound");
        if (side < 2) { /* a fault behind the sections */
            put_threads();
            put(&file, 0x10);
            save(&file, "bound");
            put_threads();
            save(&file, "bound");
        }
        left = other;
    }
}

/* four histories of lock 0 at each of the last locations, and at their end also a fault of the locks; the number of
   its locked states */
static int four_histories(int before, int tail, int fault)
{
    static struct thread thread;
    int count = 0;
    empty(&left);
    take(&left, 0);
    pass(&left, before);
    for (int lock = 1; lock <= 2; lock++) {
        int n = before + 3 * lock - 2;
        either(&left, n + 1, n + 3); take(&left, lock); give(&left, lock);
    }
    pass(&left, tail);
    if (fault == 14) {
        take(&left, 3); give(&left, 0);
    } else if (fault == 15)
        for (int lock = 3; lock < 7; lock++)
            take(&left, lock);
    stop(&left);
    read_listing(&thread, left.bytes, (size_t)left.size);
    summarise(&thread, &count);
    return count;
}

/* a listing with so many locked states */
static void counted(int states, int fault)
{
    int rest = states - four_histories(0, 0, fault);
    int count = four_histories(rest % 4, rest / 4, fault);
    if (count != states) {
        fprintf(stderr, "%d states for %d\n", count, states);
        exit(2);
    }
}

static void bounds(void)
{
    static const int kinds[][8] = {{0}, {1, 0}, {2}, {2, 0}, {1, 3}, {2, 4}, {1, 6}, {2, 2, 8}, {4, 2, 7, 0, 0}, {1, 1},
        {2, 3, 7}, {3, 4, 0, 0}, {3, 4, 0, 1}, {3, 4, 1, 0}, {5, 5, 0, 0, 0, 1}, {5, 5, 0, 1, 0, 0}, {4, 5, 0, 0, 0},
        {6, 5, 0, 0, 0, 1, 0}, {6, 5, 0, 2, 0, 0, 0}, {4, 4, 0, 9, 1}, {5, 4, 0, 9, 2, 9}, {5, 4, 0, 9, 4, 0},
        {4, 4, 0, 0, 1}, {4, 4, 2, 0, 0}, {4, 3, 0, 3, 0}, {6, 2, 0, 2, 0, 3, 8}, {7, 2, 0, 2, 1, 3, 0, 0}};
    for (size_t i = 0; i < sizeof kinds / sizeof *kinds; i++) {
        empty(&left);
        for (int k = 1; k <= kinds[i][0]; k++)
            put(&left, kinds[i][k]);
        both_sides();
    }
    for (int n = 511; n <= 514; n++)
        for (int i = 0; i < 5; i++) { /* so many commands, the last of several kinds */
            empty(&left);
            if (i == 3)
                for (int k = 0; k < n; k++)
                    either(&left, k / 2, n - 1);
            else
                pass(&left, n - 1);
            if (i == 0) stop(&left);
            if (i == 1) go_to(&left, n - 1);
            if (i == 2) go_to(&left, n);
            if (i == 4) put(&left, 9);
            both_sides();
        }
    for (int n = 1; n <= 6; n++) /* so many locks, one within another, given back in order or not */
        for (int order = 0; order < 3; order++) {
            empty(&left);
            for (int k = 0; k < n; k++)
                take(&left, order == 1 ? 7 - k : k);
            for (int k = 0; k < n; k++)
                give(&left, order == 1 ? 8 - n + k : order == 2 ? k : n - 1 - k);
            stop(&left);
            both_sides();
        }
    /* both faults of the locks: the first kind goes before the second, wherever it is */
    empty(&left);
    either(&left, 1, 6);
    for (int k = 0; k < 5; k++)
        take(&left, k);
    take(&left, 0); take(&left, 1); give(&left, 0); give(&left, 0); stop(&left);
    both_sides();
    for (int states = 1020; states <= 1025; states++) {
        counted(states, 0);
        both_sides();
    }
    for (int fault = 14; fault <= 15; fault++)
        for (int states = 1023; states <= 1025; states++) {
            counted(states, fault);
            both_sides();
        }
    /* more states than there may be, and before them a fault of each kind */
    for (int fault = 0; fault < 2; fault++) {
        empty(&left);
        either(&left, fault ? 4 : 6, 11);
        pass(&left, 3);
        take(&left, 0); give(&left, 0);
        for (int k = 0; k < 5; k++)
            take(&left, k);
        if (!fault) {
            empty(&left);
            either(&left, 1, 11);
            take(&left, 0); take(&left, 1); give(&left, 0); stop(&left);
            pass(&left, 5); stop(&left);
        }
        for (int lock = 0; lock < 8; lock++) {
            int n = 11 + 4 * lock;
            either(&left, n + 1, lock == 7 ? 43 : n + 4); take(&left, lock); give(&left, lock); go_to(&left, n + 4);
        }
        either(&left, 44, 45); take(&left, 7); either(&left, 46, 47); take(&left, 6); take(&left, 5); go_to(&left, 11);
        both_sides();
    }
}

/* Files of a size */

static void sized(int size)
{
    listing_a(&left);
    listing_b(&right);
    /* eight bytes of form, the listings and five for each pair */
    while ((7 + left.size + right.size) % 5 != size % 5)
        stop(&right);
    put_threads();
    for (int i = 0; file.size + 6 <= size; i++)
        put_pair(i / 4 % 5, i % 4);
    put_end();
    if (file.size != size)
        exit(3);
    save(&file, "sized");
    file.bytes[size - 1] = 0x12; /* the file ends where a pair begins */
    save(&file, "sized");
    file.size = size - 1;
    save(&file, "sized");
    file.bytes[size - 2] = 0x55;
    save(&file, "sized");
    file.size = size;
    file.bytes[size - 1] = 0x1f;
    file.bytes[1] = 0x7f; /* a listing that is nearly the whole file */
    file.bytes[2] = 0xfd;
    save(&file, "sized");
    file.bytes[0] = 0; /* another fault, at the front */
    save(&file, "sized");
    memset(file.bytes, 0, sizeof file.bytes);
    save(&file, "sized");
}

static void sizes(void)
{
    for (int size = 32766; size <= 32770; size++)
        sized(size);
    memset(&file, 0, sizeof file);
    put(&file, 0x10);
    static const int longs[] = {32769, 40000, 65535, 65536, 65537, 98304, 131072, 132000};
    for (size_t i = 0; i < sizeof longs / sizeof *longs; i++) {
        file.size = longs[i];
        save(&file, "sized");
    }
    for (int n = 0; n < 2; n++) { /* a section of 0 bytes, and one of 65,535 */
        empty(&file);
        put(&file, 0x10); put2(&file, n ? 65535 : 0);
        save(&file, "sized");
        put(&file, 0x11);
        save(&file, "sized");
        file.size = 30000;
        save(&file, "sized");
    }
}

/* A long way walked twice, the second time with a lock more; then so many locations. The answer is their first. */
static int long_way(struct run *l, int way, int behind, int lock)
{
    empty(l);
    pass(l, way);
    either(l, way + 1, way + 3);
    take(l, lock); go_to(l, 0);
    give(l, lock);
    pass(l, behind);
    stop(l);
    return way + 4;
}

static void long_ways(void)
{
    static const int ways[][2] = {{3, 2}, {40, 9}, {200, 60}, {450, 57}, {500, 7}, {506, 1}, {507, 0}};
    for (size_t i = 0; i < sizeof ways / sizeof *ways; i++)
        for (int lock = 0; lock < 2; lock++) {
            int a = long_way(&left, ways[i][0], ways[i][1], 0), b = long_way(&right, ways[i][0], ways[i][1], lock);
            put_threads();
            put_pair(a, b); put_pair(a + ways[i][1], b + ways[i][1]); put_pair(a + ways[i][1], 0); put_pair(0, b);
            put_pair(a - 1, b - 2); put_pair(a - 2, b - 1); put_pair(a - 2, b - 2);
            random_pairs(10);
            put_end();
            save(&file, "long");
        }
}

int main(int count, char **words)
{
    if (count != 4) {
        fputs("usage: generate SEED COUNT FOLDER\n", stderr);
        return 2;
    }
    seed = strtoull(words[1], NULL, 10) * 0x9e3779b97f4a7c15ull + 1;
    int most = atoi(words[2]);
    folder = words[3];
    for (int i = 0; i < 20; i++)
        random_bits();
    worked();
    bounds();
    sizes();
    long_ways();
    for (int i = 0; i < most; i++) {
        int roll = below(100);
        if (roll < 70) small();
        else if (roll < 80) torn();
        else if (roll < 92) crowded();
        else if (roll < 98) larger(60);
        else larger(MOST_COMMANDS);
    }
    printf("%d\n", files);
    return 0;
}
