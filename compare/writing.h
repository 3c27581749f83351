/* Runs of bytes that are being written: listings and review files. */
#ifndef WRITING_H
#define WRITING_H

#include <stdint.h>

/* commands: how many of a listing's commands stand in it */
struct run { int size, commands; uint8_t bytes[140000]; };

static inline void empty(struct run *run) { run->size = run->commands = 0; }
static inline void put(struct run *run, int byte) { run->bytes[run->size++] = (uint8_t)byte; }
static inline void put2(struct run *run, int number) { put(run, number >> 8); put(run, number & 255); }

static inline void command(struct run *l, int byte) { put(l, byte); l->commands++; }
static inline void stop(struct run *l) { command(l, 0); }
static inline void pass(struct run *l, int n) { while (n-- > 0) command(l, 1); }
static inline void take(struct run *l, int k) { command(l, 2); put(l, k); }
static inline void give(struct run *l, int k) { command(l, 3); put(l, k); }
static inline void go_to(struct run *l, int t) { command(l, 4); put2(l, t); }
static inline void either(struct run *l, int t, int u) { command(l, 5); put2(l, t); put2(l, u); }

#endif
