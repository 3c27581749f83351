/* Whether two locations of two threads can be occupied at one time.

   A thread is a listing: a run of bytes with 1 to 512 commands one after another. Its locations are its commands, counted
   from 0, and it starts at command 0. Locks are numbered 0 to 7. A thread alone may hold at most 4 of them at one time,
   must give them back in the opposite order of taking, and may reach at most 1,024 locked states (a location with the
   locks held there, each with those taken since). docs/RULES.md has the commands and every rule.

   A schedule is a list of moves, and a move is one step of one thread. A shortest schedule has at most 2,046 moves. Each
   takes two bytes: the side (0 for the left thread, 1 for the right), then the choice, 0 to 15, which is the number of the
   step at the location where that thread is; only EITHER has a step 1. Read as one number, the higher byte first, these
   are 0 to 15 for the left thread and 256 to 271 for the right.

   Calls may be made from several threads at once. Nothing is kept from call to call, and there is nothing to free. */
#ifndef PAIR_VERDICT_H
#define PAIR_VERDICT_H

#include <stddef.h>
#include <stdint.h>

#ifdef __cplusplus
extern "C" {
#endif

/* So many bytes are enough for the moves of any shortest schedule. */
#define PAIR_VERDICT_MOVES_SIZE 4092

/* The sides of a move. */
enum { PAIR_VERDICT_LEFT = 0, PAIR_VERDICT_RIGHT = 1 };

/* The answer where no schedule leads to both locations. */
#define PAIR_VERDICT_NEVER (-1)

/* The answer where the call is out of memory. */
#define PAIR_VERDICT_NO_MEMORY INT64_MIN

/* The answers that are refusals: -(100 + number), with the numbers of docs/REFUSALS.md. */
enum {
    /* of the left listing, then of the right */
    PAIR_VERDICT_REFUSED_NO_BYTES = -101,
    PAIR_VERDICT_REFUSED_UNKNOWN_COMMAND = -102,
    PAIR_VERDICT_REFUSED_CUT_OFF = -103,
    PAIR_VERDICT_REFUSED_TOO_MANY_COMMANDS = -104,
    PAIR_VERDICT_REFUSED_UNKNOWN_LOCK = -105,
    PAIR_VERDICT_REFUSED_MISSING_TARGET = -106,
    PAIR_VERDICT_REFUSED_RUNS_OFF_THE_END = -107,
    /* of the left thread alone, then of the right */
    PAIR_VERDICT_REFUSED_TOO_MANY_STATES = -113,
    PAIR_VERDICT_REFUSED_NESTING_FAULT = -114,
    PAIR_VERDICT_REFUSED_DEPTH_FAULT = -115,
    /* of the pair */
    PAIR_VERDICT_REFUSED_NO_SUCH_LOCATION = -117,
    /* of the run for the moves */
    PAIR_VERDICT_REFUSED_RUN_TOO_SHORT = -118
};

/* What the library exports. It must not be handed NULL: call pair_verdict. */
int64_t pair_verdict_entry(const uint8_t *left, size_t left_size, const uint8_t *right, size_t right_size,
                           uint32_t left_location, uint32_t right_location, uint8_t *moves, size_t moves_size);

/* Answers for a location of the left listing and one of the right: the number of moves of a shortest schedule that leads
   to both (0 where both threads start there), PAIR_VERDICT_NEVER, PAIR_VERDICT_NO_MEMORY, or a refusal. Any bytes and any
   locations may be given.

   The moves go to the front of the run `moves`, which has room for half as many as it has bytes; an odd last byte is not
   used. What is not written stays as it was, and on an answer below 0 the whole run does. The listings are only read.

   NULL is a run of no bytes, whatever its size. The two listings may overlap, or be one; the run for the moves overlaps
   neither. */
static inline int64_t pair_verdict(const uint8_t *left, size_t left_size, const uint8_t *right, size_t right_size,
                                   uint32_t left_location, uint32_t right_location, uint8_t *moves, size_t moves_size)
{
    uint8_t none = 0;
    return pair_verdict_entry(left ? left : &none, left ? left_size : 0, right ? right : &none, right ? right_size : 0,
                              left_location, right_location, moves ? moves : &none, moves ? moves_size : 0);
}

/* The number of the refusal that an answer is, or 0 where it is none. */
static inline int pair_verdict_refusal(int64_t answer)
{
    switch (answer) {
    case PAIR_VERDICT_REFUSED_NO_BYTES:
    case PAIR_VERDICT_REFUSED_UNKNOWN_COMMAND:
    case PAIR_VERDICT_REFUSED_CUT_OFF:
    case PAIR_VERDICT_REFUSED_TOO_MANY_COMMANDS:
    case PAIR_VERDICT_REFUSED_UNKNOWN_LOCK:
    case PAIR_VERDICT_REFUSED_MISSING_TARGET:
    case PAIR_VERDICT_REFUSED_RUNS_OFF_THE_END:
    case PAIR_VERDICT_REFUSED_TOO_MANY_STATES:
    case PAIR_VERDICT_REFUSED_NESTING_FAULT:
    case PAIR_VERDICT_REFUSED_DEPTH_FAULT:
    case PAIR_VERDICT_REFUSED_NO_SUCH_LOCATION:
    case PAIR_VERDICT_REFUSED_RUN_TOO_SHORT:
        return (int)(-100 - answer);
    default:
        return 0;
    }
}

/* What an answer says. */
static inline const char *pair_verdict_words(int64_t answer)
{
    if (answer >= 0)
        return "reached";
    switch (answer) {
    case PAIR_VERDICT_NEVER: return "never";
    case PAIR_VERDICT_NO_MEMORY: return "out of memory";
    case PAIR_VERDICT_REFUSED_NO_BYTES: return "a listing has no bytes";
    case PAIR_VERDICT_REFUSED_UNKNOWN_COMMAND: return "a listing has a command above 05";
    case PAIR_VERDICT_REFUSED_CUT_OFF: return "a listing ends within a command";
    case PAIR_VERDICT_REFUSED_TOO_MANY_COMMANDS: return "a listing has more than 512 commands";
    case PAIR_VERDICT_REFUSED_UNKNOWN_LOCK: return "a listing has a lock above 7";
    case PAIR_VERDICT_REFUSED_MISSING_TARGET: return "a listing has a target that is none of its commands";
    case PAIR_VERDICT_REFUSED_RUNS_OFF_THE_END: return "the last command of a listing is PASS, TAKE or GIVE";
    case PAIR_VERDICT_REFUSED_TOO_MANY_STATES: return "a thread reaches more than 1,024 locked states";
    case PAIR_VERDICT_REFUSED_NESTING_FAULT: return "a thread gives a held lock that it did not take last";
    case PAIR_VERDICT_REFUSED_DEPTH_FAULT: return "a thread takes a fifth lock";
    case PAIR_VERDICT_REFUSED_NO_SUCH_LOCATION: return "a thread has no such location";
    case PAIR_VERDICT_REFUSED_RUN_TOO_SHORT: return "the run is too short for the moves";
    default: return "no answer of pair_verdict";
    }
}

/* Whose move i of a schedule is, counted from 0: PAIR_VERDICT_LEFT or PAIR_VERDICT_RIGHT. */
static inline int pair_verdict_move_side(const uint8_t *moves, int64_t i)
{
    return moves[2 * i];
}

/* Which step it is, at the location where that thread then is. */
static inline int pair_verdict_move_choice(const uint8_t *moves, int64_t i)
{
    return moves[2 * i + 1];
}

#ifdef __cplusplus
}
#endif

#endif
