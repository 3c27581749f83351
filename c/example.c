/* Asks about some pairs of two threads, and prints the answers. */
#include <inttypes.h>
#include <stdio.h>

#include "pair_verdict.h"

/* take 0, take 1, give 1, stop; and take 1, take 0, give 0, stop */
static const uint8_t left[] = {0x02, 0, 0x02, 1, 0x03, 1, 0x00};
static const uint8_t right[] = {0x02, 1, 0x02, 0, 0x03, 0, 0x00};

/* Prints what came of a pair, in one line. */
static void tell(uint32_t a, uint32_t b, int64_t answer, const uint8_t *moves)
{
    printf("%" PRIu32 " %" PRIu32, a, b);
    if (pair_verdict_refusal(answer))
        printf(" refused %d: %s\n", pair_verdict_refusal(answer), pair_verdict_words(answer));
    else if (answer < 0)
        printf(" %s\n", pair_verdict_words(answer));
    else {
        printf(" reached %" PRId64 ":", answer);
        for (int64_t i = 0; i < answer; i++)
            printf(" %c%d", pair_verdict_move_side(moves, i) == PAIR_VERDICT_LEFT ? 'L' : 'R',
                   pair_verdict_move_choice(moves, i));
        printf("\n");
    }
}

static void ask(uint32_t a, uint32_t b)
{
    uint8_t moves[PAIR_VERDICT_MOVES_SIZE];
    tell(a, b, pair_verdict(left, sizeof left, right, sizeof right, a, b, moves, sizeof moves), moves);
}

int main(void)
{
    ask(3, 1);
    ask(3, 3); /* each thread would have to take what the other holds */
    ask(9, 0);
    /* No room for the moves; and no left listing. */
    tell(3, 1, pair_verdict(left, sizeof left, right, sizeof right, 3, 1, NULL, 0), NULL);
    tell(0, 0, pair_verdict(NULL, 0, right, sizeof right, 0, 0, NULL, 0), NULL);
    return 0;
}
