/* Two threads with locks in plain C, from the rules alone, to compare with: listings, a thread alone, both threads
   together by search over both, and review files. */
#ifndef THREADS_H
#define THREADS_H

#include <stddef.h>
#include <stdint.h>

enum {
    MOST_COMMANDS = 512, MOST_LOCK = 7, MOST_HELD = 4, MOST_STATES = 1024, MOST_MOVES = 2046, MOST_BYTES = 32768,
    MOST_PAIRS = MOST_BYTES / 5
};

/* number 0: nothing is refused */
struct refusal { int number; long place; };

enum kind { PLAIN, TAKE, GIVE };
struct step { uint8_t kind, lock; uint16_t target; };
struct thread {
    int locations;
    uint8_t step_count[MOST_COMMANDS];
    struct step steps[MOST_COMMANDS][2];
};

struct refusal read_listing(struct thread *thread, const uint8_t *bytes, size_t size);
struct refusal read_names(const uint8_t names[8]);
void rename_locks(struct thread *thread, const uint8_t names[8]);

/* The locked states that a thread alone reaches. Their number, at most one too many, goes to *states if that is not
   null. */
struct refusal summarise(const struct thread *thread, int *states);

/* A thread alone without histories: each location with each set of locks held there, and where its steps lead. */
struct place { uint16_t location; uint8_t locks; };
struct side {
    const struct thread *thread;
    int count;
    struct place places[MOST_STATES];
    int16_t next[MOST_STATES][2]; /* -1: no such step, or it waits for ever */
};

/* Both threads together: every two places that they reach, found in the order of moves. */
struct search {
    struct side left, right;
    uint32_t *from;   /* of both places: those before */
    uint16_t *move;   /* of both places: the move from those before */
    uint32_t *first;  /* of both locations: the places first reached there */
    int16_t *least;   /* of both locations: the least number of moves, -1 for never */
};

void search_both(struct search *search, const struct thread *left, const struct thread *right);
void search_end(struct search *search);
/* The least number of moves to two locations, -1 for never. */
int least_moves(const struct search *search, uint32_t left, uint32_t right);
/* Writes the moves of one shortest schedule to two locations that are reached. */
void shortest_moves(const struct search *search, uint32_t left, uint32_t right, uint16_t *moves);

/* Whether moves lead from both starts to two locations. */
int replays(const struct thread *left, const struct thread *right, const uint16_t *moves, long count, uint32_t a,
    uint32_t b);

struct pair { uint16_t left, right; };
struct review {
    struct thread left, right; /* the right one renamed */
    struct refusal refusal;    /* of the file, or else of the first summary refused */
    const char *where;
    int pair_count;
    struct pair pairs[MOST_PAIRS];
};

void read_review(struct review *review, const uint8_t *bytes, size_t size);

/* The bytes of a whole file, with its size; ends the program if it cannot be read. */
uint8_t *read_file(const char *name, size_t *size);

#endif
