/* What the machine's parts share: where it is, and how it goes on. */
#ifndef MACHINE_H
#define MACHINE_H

#include "scheme.h"

/* The variables that have the environment and the continuation, and those that get the next ones. */
extern PER_THREAD uint32_t env, new_env, k, new_k;
/* The value that was computed last. It lies in VAL, or in no variable. */
extern PER_THREAD value val;
/* The number of the future whose value is computed; 0 of the expression at the top. */
extern PER_THREAD uint32_t future_now;

/* Where the machine goes on instead of a node, and where operands come from instead of a call's: a list in T7, of which the last is first, or the value. At
   SWITCH the thread takes another task. */
#define RETURN NONE
#define HALT (NONE - 1u)
#define FROM_LIST (NONE - 2u)
#define FROM_VALUE (NONE - 3u)
#define SWITCH (NONE - 4u)

static inline void swap(uint32_t *a, uint32_t *b) {
    uint32_t it = *a;
    *a = *b;
    *b = it;
}

static inline void at_line(const struct node *n) {
    if (n->line) line_now = n->line;
}

/* The node of the operand at a position of a call; position 0 is the operator. */
static inline uint32_t part_of(const struct node *call, uint32_t i) { return i ? operands[call->b + i - 1] : call->a; }

/* simple.c */
value simple(uint32_t pc, uint32_t t);
value invoke(uint32_t primitive, value *a, uint32_t n, uint32_t t);
void assign(const struct node *n, value v);
uint32_t give(value v);

/* frames.c. A frame at this node becomes the first one; the node of the first frame, whose environment becomes the machine's, or HALT if there is none;
   the first one ends. */
void push_frame(uint32_t pc);
uint32_t top_frame(void);
void drop_frame(void);
/* The first frame, of an ARGUMENT at this node, has its value: the next one of the call becomes the first. */
void next_frame(uint32_t pc);
/* The value of the operand at a position of a call whose last one was computed; all frames of the call end. */
value kept_value(const struct node *call, uint32_t i, uint32_t t);
void drop_frames(const struct node *call);
/* All frames are in the heap now, from k on. Uses S0 and S1. Those in slots are forgotten. */
void frames_to_heap(void);
void forget_frames(void);

/* calls.c. The ribs of a new environment, and a call all of whose operands are simple or have been computed. */
void begin_ribs(uint32_t variables);
void bind(value v);
void end_ribs(uint32_t parent);
uint32_t complete(uint32_t pc, int has_frame);
/* Calls what is in T0 with the list in OPERANDS. */
uint32_t apply(void);

/* futures.c. The value of the future in T0, which the machine may have to wait for. */
uint32_t touch(void);

#endif
