/* Heavy review files, the same report by a search of both threads together, and the times of both programs.
   report make FOLDER: writes the files.
   report print: reads a review file on standard input and prints its report.
   report time ROUNDS FILE PROGRAM WORDS..: the least time in ns that the program takes for the file. */
#define _POSIX_C_SOURCE 200809L
#include "../compare/threads.h"
#include "../compare/writing.h"

#include <fcntl.h>
#include <stdio.h>
#include <stdlib.h>
#include <string.h>
#include <sys/wait.h>
#include <time.h>
#include <unistd.h>

static struct run left, right, file;

/* locks that may each be taken and given back, or not: twice as many histories with each */
static void perhaps(struct run *l, const char *locks)
{
    for (; *locks; locks++) {
        either(l, l->commands + 1, l->commands + 3);
        take(l, *locks - '0');
        give(l, *locks - '0');
    }
}

/* The threads, and pairs of their locations from some on, over and over until the file is full or they are so many */
static void save(const char *folder, const char *name, int from_left, int from_right, int pairs)
{
    char path[4096];
    int a = from_left, b = from_right;
    snprintf(path, sizeof path, "%s/%s", folder, name);
    empty(&file);
    for (int side = 0; side < 2; side++) {
        const struct run *l = side == 0 ? &left : &right;
        put(&file, 0x10 + side);
        put2(&file, l->size);
        memcpy(file.bytes + file.size, l->bytes, (size_t)l->size);
        file.size += l->size;
    }
    while (pairs-- > 0 && file.size + 6 <= MOST_BYTES) {
        put(&file, 0x12); put2(&file, a); put2(&file, b);
        if (++b == right.commands) {
            b = from_right;
            if (++a == left.commands)
                a = from_left;
        }
    }
    put(&file, 0x1f);
    FILE *f = fopen(path, "wb");
    if (!f || fwrite(file.bytes, 1, (size_t)file.size, f) != (size_t)file.size || fclose(f)) {
        perror(path);
        exit(2);
    }
}

static void branching(struct run *l, int own, const char *locks, int passes)
{
    empty(l);
    take(l, own);
    perhaps(l, locks);
    pass(l, passes);
    give(l, own);
    pass(l, 8);
    stop(l);
}

/* a lock, for good; one taken and given back, if not -1; some perhaps; and then some more for good */
static void crowd(struct run *l, int own, int once, const char *locks, const char *within, int passes)
{
    empty(l);
    take(l, own);
    if (once >= 0) {
        take(l, once);
        give(l, once);
    }
    perhaps(l, locks);
    for (; *within; within++)
        take(l, *within - '0');
    pass(l, passes);
    stop(l);
}

/* a way walked twice, the second time with a lock; then so many locations */
static int long_way(struct run *l, int way, int behind, int lock)
{
    empty(l);
    pass(l, way);
    either(l, way + 1, way + 3);
    take(l, lock);
    go_to(l, 0);
    give(l, lock);
    pass(l, behind);
    stop(l);
    return way + 4;
}

static void make(const char *folder)
{
    /* eight histories at most locations; every pair of locations */
    branching(&left, 0, "123", 60);
    branching(&right, 1, "023", 60);
    save(folder, "spread", 0, 0, MOST_PAIRS);
    /* 128 histories of one lock that both hold, at each of five locations */
    crowd(&left, 7, -1, "0123456", "", 4);
    crowd(&right, 7, -1, "0123456", "", 4);
    save(folder, "crowd", left.commands - 5, right.commands - 5, MOST_PAIRS);
    /* four locks held and 64 histories; only the last lock of both is the same */
    crowd(&left, 0, -1, "124567", "127", 9);
    crowd(&right, 3, -1, "012456", "457", 9);
    save(folder, "deep", left.commands - 10, right.commands - 10, MOST_PAIRS);
    /* 64 histories of one lock, each with the lock that the other holds */
    crowd(&left, 0, 1, "234567", "", 11);
    crowd(&right, 1, 0, "234567", "", 11);
    save(folder, "crossed", left.commands - 12, right.commands - 12, MOST_PAIRS);
    /* schedules of nearly 2,000 moves */
    int a = long_way(&left, 460, 30, 0);
    int b = long_way(&right, 460, 30, 1);
    save(folder, "long", a, b, MOST_PAIRS);
    /* the same, with no pair twice */
    a = long_way(&left, 420, 80, 0);
    b = long_way(&right, 420, 80, 1);
    save(folder, "far", a, b, MOST_PAIRS);
    /* as many places of both as there may be, and few pairs */
    long_way(&left, 507, 0, 0);
    long_way(&right, 507, 0, 1);
    save(folder, "wide", left.commands - 1, right.commands - 1, 1);
}

/* The report */

static struct review review;
static struct search search;
static char *text;
static size_t text_size, text_most;

static void room_for(size_t n)
{
    if (text_size + n <= text_most)
        return;
    text_most = 2 * text_most + n + 65536;
    text = realloc(text, text_most);
    if (!text)
        exit(2);
}

static void say(const char *words)
{
    size_t n = strlen(words);
    memcpy(text + text_size, words, n);
    text_size += n;
}

static void say_number(unsigned n)
{
    char digits[10];
    int count = 0;
    do
        digits[count++] = (char)('0' + n % 10);
    while (n /= 10);
    while (count > 0)
        text[text_size++] = digits[--count];
}

static void say_pair(struct pair pair)
{
    uint16_t moves[MOST_MOVES];
    int n;
    room_for(64 + 8 * MOST_MOVES);
    say_number(pair.left);
    say(" ");
    say_number(pair.right);
    if (pair.left >= review.left.locations || pair.right >= review.right.locations) {
        say(" refused 17\n");
        return;
    }
    n = least_moves(&search, pair.left, pair.right);
    if (n < 0) {
        say(" never\n");
        return;
    }
    say(" reached ");
    say_number((unsigned)n);
    say(":");
    shortest_moves(&search, pair.left, pair.right, moves);
    for (int i = 0; i < n; i++) {
        say(moves[i] < 256 ? " L" : " R");
        say_number(moves[i] % 256u);
    }
    say("\n");
}

static int print(void)
{
    size_t size;
    uint8_t *bytes = read_file("/dev/stdin", &size);
    read_review(&review, bytes, size);
    if (review.refusal.number) {
        printf("refused %d at %ld in %s\n", review.refusal.number, review.refusal.place, review.where);
        return 0;
    }
    search_both(&search, &review.left, &review.right);
    for (int i = 0; i < review.pair_count; i++)
        say_pair(review.pairs[i]);
    return fwrite(text, 1, text_size, stdout) == text_size ? 0 : 2;
}

/* Times */

static long long now(void)
{
    struct timespec t;
    clock_gettime(CLOCK_MONOTONIC, &t);
    return t.tv_sec * 1000000000LL + t.tv_nsec;
}

static int best_time(int rounds, const char *name, char **program)
{
    long long best = -1;
    for (int i = 0; i < rounds; i++) {
        long long start = now();
        int status;
        pid_t child = fork();
        if (child == 0) {
            int in = open(name, O_RDONLY), out = open("/dev/null", O_WRONLY);
            if (in >= 0 && out >= 0 && dup2(in, 0) == 0 && dup2(out, 1) == 1)
                execv(program[0], program);
            _exit(127);
        }
        if (child < 0 || waitpid(child, &status, 0) != child || status != 0) {
            fprintf(stderr, "%s fails\n", program[0]);
            return 2;
        }
        long long taken = now() - start;
        if (best < 0 || taken < best)
            best = taken;
    }
    printf("%lld\n", best);
    return 0;
}

int main(int count, char **words)
{
    if (count == 3 && !strcmp(words[1], "make")) {
        make(words[2]);
        return 0;
    }
    if (count == 2 && !strcmp(words[1], "print"))
        return print();
    if (count >= 5 && !strcmp(words[1], "time"))
        return best_time(atoi(words[2]), words[3], words + 4);
    fputs("usage: report make FOLDER | print | time ROUNDS FILE PROGRAM WORDS..\n", stderr);
    return 2;
}
