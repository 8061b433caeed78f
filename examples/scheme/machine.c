/* The machine. It goes from node to node. What is simple is computed at once, and for all else a frame says where to go on with its value. */
#include "machine.h"

PER_THREAD uint32_t env = ENV0, new_env = ENV1;
PER_THREAD value val;

/* Goes on at the part of a node; at the node itself with its value. */
static uint32_t later(uint32_t pc, uint32_t part) {
    push_frame(pc);
    return part;
}

/* An operand is computed: the next that isn't simple, or the call. */
static uint32_t next_argument(uint32_t pc) {
    const struct node *n = &code[pc];
    if (!n->c) return complete(n->a, 1);
    next_frame(pc);
    return part_of(&code[n->a], code[n->c].b);
}

/* One step: RETURN if the value is there. */
static uint32_t go(uint32_t pc) {
    const struct node *n = &code[pc];
    uint32_t first, i;
    value v;
    if (n->needs <= SIMPLE) return give(simple(pc, VAL));
    if (n->op <= ARGUMENT) {
        first = operands[n->b + 2 * n->c + 1];
        return first ? later(first, part_of(n, code[first].b)) : complete(pc, 0);
    }
    if (n->op == EXTEND) {
        begin_ribs(n->a);
        for (i = n->a; i; i--) bind(plain(EMPTY));
        end_ribs(env);
        return n->b;
    }
    if (code[n->a].needs > SIMPLE) return later(pc, n->a);
    v = simple(n->a, VAL);
    if (n->op == SEQ) return n->b;
    if (n->op == IF) return is_true(v) ? n->b : n->c;
    return is_true(v) == (n->op == AND) ? n->b : give(v);
}

/* The value is there: goes on at the first frame. */
static uint32_t resume(void) {
    uint32_t pc = top_frame();
    const struct node *n;
    if (pc == HALT) return HALT;
    n = &code[pc];
    if (n->op == ARGUMENT) return next_argument(pc);
    drop_frame();
    if (n->op == SEQ) return n->b;
    if (n->op == IF) return is_true(val) ? n->b : n->c;
    if (n->op == AND || n->op == OR) return is_true(val) == (n->op == AND) ? n->b : RETURN;
    assign(n, val);
    return give(nothing_());
}

void machine_reset(void) {
    uint32_t v;
    for (v = STACK; v < CACHE; v++)
        if (v != k) forget(v);
    forget_frames();
}

uint32_t evaluate(uint32_t pc) {
    while (pc != HALT && pc != SWITCH) pc = pc == RETURN ? resume() : go(pc);
    return pc;
}
