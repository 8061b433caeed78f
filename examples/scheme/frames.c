/*
 * What is left to do: a chain of frames, at whose end is the future whose value is computed. The newest frames lie in slots of the thread, two for each: its
 * environment, and the value of the operand that it waited for. The others are objects that never change: field 0 is the next one, field 1 the environment;
 * those of a call have in field 2 the value that was computed before, and in field 3 the frame with the values before that. All become objects if a
 * continuation is made, if a future is waited for, and if slots get few; so a recursion is as deep as the heap, and a continuation is kept by keeping a
 * reference.
 */
#include "machine.h"

/* Frames in slots at most: once fewer than the most operands of a call are left, all become objects. */
enum { FRAMES = SLOTS / 2, NEARLY_ALL = FRAMES - MOST - 1, OFTEN = 1024 };

PER_THREAD uint32_t k = K0, new_k = K1;

/* The nodes of the frames in slots; how many there are, and were since slots were forgotten; how many were made. */
static PER_THREAD uint32_t nodes[FRAMES], top, highest, made;

static uint32_t environment_slot(uint32_t frame) { return 2 * frame; }
static uint32_t value_slot(uint32_t frame) { return 2 * frame + 1; }

/* Forgets what is in slots no more. */
static void tidy(void) {
    if (highest > top) forget_slots(2 * top, 2 * highest);
    highest = top;
}

void forget_frames(void) {
    top = 0;
    tidy();
}

static void add(uint32_t pc) {
    nodes[top] = pc;
    spill(env, environment_slot(top++));
    if (top > highest) highest = top;
}

void push_frame(uint32_t pc) {
    if (top >= NEARLY_ALL) frames_to_heap();
    if (++made % OFTEN == 0) tidy();
    add(pc);
}

uint32_t top_frame(void) {
    uint32_t w;
    if (top) {
        fill(env, environment_slot(top - 1));
        return nodes[top - 1];
    }
    w = word(k);
    if (KIND(w) == FUTURE) return HALT;
    get(env, k, 1);
    return DATA(w);
}

void drop_frame(void) {
    if (top) top--;
    else get(k, k, 0);
}

/* The first operand of its call that isn't simple. */
static uint32_t first_of(const struct node *argument) {
    const struct node *of = &code[argument->a];
    return operands[of->b + 2 * of->c + 1];
}

/* The next frame of a call in the heap, after that in k; the value between is in v. */
static void make_next(uint32_t pc, uint32_t previous, uint32_t v) {
    make(new_k, WORD(RIB, pc), FIELDS);
    set(new_k, 2, v);
    get(S0, k, 0);
    set(new_k, 0, S0);
    if (first_of(&code[pc]) != previous) set(new_k, 3, k);
}

void next_frame(uint32_t pc) {
    const struct node *n = &code[pc];
    uint32_t v = in_variable(val, VAL);
    if (top) {
        spill(v, value_slot(top - 1));
        add(n->c);
    } else {
        make_next(n->c, pc, v);
        set(new_k, 1, env);
        swap(&k, &new_k);
    }
}

/* How many operands of a call after the one at a position have frames. */
static uint32_t frames_after(const struct node *call, uint32_t i) {
    const uint32_t *arguments = operands + call->b + call->c;
    uint32_t count = 0;
    while (++i <= call->c) count += arguments[i] != 0;
    return count;
}

value kept_value(const struct node *call, uint32_t i, uint32_t t) {
    uint32_t after = frames_after(call, i), frame = k;
    if (!after) return val;
    if (top) fill(t, value_slot(top - 1 - after));
    else {
        for (; after > 1; after--, frame = S0) get(S0, frame, 3);
        get(t, frame, 2);
    }
    return here(t);
}

void drop_frames(const struct node *call) {
    if (top) top -= frames_after(call, 0) + (operands[call->b + call->c] != 0);
    else get(k, k, 0);
}

static void frame_to_heap(uint32_t i) {
    const struct node *n = &code[nodes[i]];
    if (n->op == ARGUMENT && first_of(n) != nodes[i]) {
        fill(S1, value_slot(i - 1));
        make_next(nodes[i], nodes[i - 1], S1);
    } else {
        make(new_k, WORD(RIB, nodes[i]), 2);
        set(new_k, 0, k);
    }
    fill(S0, environment_slot(i));
    set(new_k, 1, S0);
    swap(&k, &new_k);
}

void frames_to_heap(void) {
    uint32_t i;
    for (i = 0; i < top; i++) frame_to_heap(i);
    top = 0;
}
