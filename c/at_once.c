/* Makes the same calls from several threads at once, and compares each answer, with the whole run for its moves, with what
   the call answered when it was made alone. Prints the number of calls. */
#include <pthread.h>
#include <stdio.h>
#include <stdlib.h>
#include <string.h>

#include "pair_verdict.h"

enum { THREADS = 4, ROUNDS = 50, COMMANDS = 512, PASS = 0x01 };

/* take 0, take 1, give 1, stop; take 1, take 0, give 0, stop; a give that nests wrongly; and 511 times pass, stop */
static const uint8_t first[] = {0x02, 0, 0x02, 1, 0x03, 1, 0x00};
static const uint8_t second[] = {0x02, 1, 0x02, 0, 0x03, 0, 0x00};
static const uint8_t faulty[] = {0x02, 0, 0x02, 1, 0x03, 0, 0x00};
static uint8_t passes[COMMANDS];

static const struct {
    const uint8_t *left;
    size_t left_size;
    const uint8_t *right;
    size_t right_size;
    uint32_t a, b;
    size_t moves_size;
    int64_t answer;
} calls[] = {
    {first, sizeof first, second, sizeof second, 3, 1, PAIR_VERDICT_MOVES_SIZE, 4},
    {first, sizeof first, second, sizeof second, 1, 3, 9, 4},
    {first, sizeof first, second, sizeof second, 3, 1, 7, PAIR_VERDICT_REFUSED_RUN_TOO_SHORT},
    {first, sizeof first, second, sizeof second, 3, 3, PAIR_VERDICT_MOVES_SIZE, PAIR_VERDICT_NEVER},
    {first, sizeof first, first, sizeof first, 3, 3, PAIR_VERDICT_MOVES_SIZE, PAIR_VERDICT_NEVER},
    {first, sizeof first, faulty, sizeof faulty, 0, 0, 0, PAIR_VERDICT_REFUSED_NESTING_FAULT},
    {NULL, 0, second, sizeof second, 0, 0, 0, PAIR_VERDICT_REFUSED_NO_BYTES},
    {passes, sizeof passes, second, sizeof second, 512, 0, 0, PAIR_VERDICT_REFUSED_NO_SUCH_LOCATION},
    {passes, sizeof passes, passes, sizeof passes, 511, 511, PAIR_VERDICT_MOVES_SIZE, 1022},
};
enum { CALLS = sizeof calls / sizeof calls[0] };

static uint8_t moves_alone[CALLS][PAIR_VERDICT_MOVES_SIZE];

/* Makes one call, and says whether its answer is the one that is wanted. */
static int made(int i, uint8_t *moves)
{
    memset(moves, 0xa5, PAIR_VERDICT_MOVES_SIZE);
    return pair_verdict(calls[i].left, calls[i].left_size, calls[i].right, calls[i].right_size, calls[i].a, calls[i].b,
                        moves, calls[i].moves_size) == calls[i].answer;
}

/* Makes every call again and again, and answers NULL where each came out as when it was made alone. */
static void *one_thread(void *name)
{
    uint8_t moves[PAIR_VERDICT_MOVES_SIZE];
    for (int round = 0; round < ROUNDS; round++)
        for (int i = 0; i < CALLS; i++)
            if (!made(i, moves) || memcmp(moves, moves_alone[i], sizeof moves) != 0)
                return name;
    return NULL;
}

int main(void)
{
    pthread_t threads[THREADS];
    char names[THREADS];
    memset(passes, PASS, COMMANDS - 1);
    for (int i = 0; i < CALLS; i++)
        if (!made(i, moves_alone[i])) {
            printf("call %d made alone: another answer\n", i);
            return 1;
        }
    for (int i = 0; i < THREADS; i++)
        if (pthread_create(&threads[i], NULL, one_thread, &names[i]) != 0)
            return 2;
    int differ = 0;
    for (int i = 0; i < THREADS; i++) {
        void *failed = NULL;
        if (pthread_join(threads[i], &failed) != 0)
            return 2;
        differ += failed != NULL;
    }
    if (differ) {
        printf("%d of %d threads had other answers\n", differ, THREADS);
        return 1;
    }
    printf("%d threads at once, %d calls, no other answers\n", THREADS, THREADS * ROUNDS * CALLS);
    return 0;
}
