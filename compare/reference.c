/* reference FILE: prints what must be printed for a review file, without the moves of a reached line.
   reference FILE OUTPUT: whether OUTPUT is what must be printed, and whether its moves lead to each pair. */
#include "threads.h"

#include <stdarg.h>
#include <stdio.h>
#include <stdlib.h>
#include <string.h>

static struct review review;
static struct search search;

/* The line of a pair; for a reached pair up to the colon, and then the answer is the number of moves, else -1. */
static int line_of_pair(struct pair pair, char *line)
{
    int n;
    if (pair.left >= review.left.locations || pair.right >= review.right.locations) {
        sprintf(line, "%d %d refused 17\n", pair.left, pair.right);
        return -1;
    }
    n = least_moves(&search, pair.left, pair.right);
    if (n < 0)
        sprintf(line, "%d %d never\n", pair.left, pair.right);
    else
        sprintf(line, "%d %d reached %d:", pair.left, pair.right, n);
    return n;
}

static void print_report(void)
{
    char line[64];
    if (review.refusal.number)
        printf("refused %d at %ld in %s\n", review.refusal.number, review.refusal.place, review.where);
    else
        for (int i = 0; i < review.pair_count; i++) {
            int n = line_of_pair(review.pairs[i], line);
            printf("%s%s", line, n < 0 ? "" : "\n");
        }
}

static const char *text, *text_end;
static int line_number;

static void wrong(const char *form, ...)
{
    va_list args;
    va_start(args, form);
    printf("line %d: ", line_number);
    vprintf(form, args);
    putchar('\n');
    va_end(args);
    exit(1);
}

static void expect(const char *wanted)
{
    size_t n = strlen(wanted);
    const char *end = memchr(text, '\n', (size_t)(text_end - text));
    int shown = (int)((end ? end : text_end) - text);
    if ((size_t)(text_end - text) < n || memcmp(text, wanted, n))
        wrong("wants `%.*s`, has `%.*s`", (int)strcspn(wanted, "\n"), wanted, shown > 80 ? 80 : shown, text);
    text += n;
}

/* a number in decimal without leading zeros */
static int number_at_text(void)
{
    const char *begin = text;
    int value = 0;
    while (text < text_end && *text >= '0' && *text <= '9' && text - begin < 4)
        value = value * 10 + (*text++ - '0');
    if (text == begin || (*begin == '0' && text - begin > 1))
        wrong("a move has no number as it is written");
    return value;
}

static void expect_moves(struct pair pair, int n)
{
    uint16_t moves[MOST_MOVES];
    if (n > MOST_MOVES)
        wrong("wants %d moves, more than there may be", n);
    for (int i = 0; i < n; i++) {
        if (text_end - text < 3 || text[0] != ' ' || (text[1] != 'L' && text[1] != 'R'))
            wrong("move %d of %d is not there", i, n);
        int base = text[1] == 'L' ? 0 : 256;
        text += 2;
        moves[i] = (uint16_t)(base + number_at_text());
    }
    expect("\n");
    if (!replays(&review.left, &review.right, moves, n, pair.left, pair.right))
        wrong("the moves do not lead from the starts to %d %d", pair.left, pair.right);
}

static void compare(void)
{
    char line[64];
    line_number = 1;
    if (review.refusal.number) {
        sprintf(line, "refused %d at %ld in %s\n", review.refusal.number, review.refusal.place, review.where);
        expect(line);
    } else
        for (int i = 0; i < review.pair_count; i++, line_number++) {
            int n = line_of_pair(review.pairs[i], line);
            expect(line);
            if (n >= 0)
                expect_moves(review.pairs[i], n);
        }
    if (text != text_end)
        wrong("there is more than must be printed");
}

int main(int count, char **names)
{
    size_t size;
    if (count != 2 && count != 3) {
        fputs("usage: reference FILE [OUTPUT]\n", stderr);
        return 2;
    }
    uint8_t *bytes = read_file(names[1], &size);
    read_review(&review, bytes, size);
    if (!review.refusal.number && review.pair_count)
        search_both(&search, &review.left, &review.right);
    if (count == 2)
        print_report();
    else {
        text = (const char *)read_file(names[2], &size);
        text_end = text + size;
        compare();
    }
    return 0;
}
