/* Calls: of closures, whose operands become the ribs of a new environment, of primitives, and of continuations. */
#include "machine.h"

/* The value of the operand at a position: computed now if it is simple, and else from the frames. */
static value operand(const struct node *call, uint32_t i, uint32_t t) {
    return operands[call->b + call->c + i] ? kept_value(call, i, t) : simple(part_of(call, i), t);
}

/* The operand number i of a call, or of a list, of which the last comes first, or the one that is the value. */
static value operand_from(uint32_t from, uint32_t i, uint32_t t) {
    if (from == FROM_VALUE) return val;
    if (from != FROM_LIST) return operand(&code[from], i, t);
    get(t, T7, 0);
    get(T7, T7, 1);
    return here(t);
}

/* The operands after the first so many, as a list in OPERANDS. */
static void collect(uint32_t from, uint32_t n, uint32_t after) {
    forget(OPERANDS);
    for (; n > after; n--) {
        pair(S1, in_variable(operand_from(from, n, T0), T0), OPERANDS, 0);
        copy(OPERANDS, S1);
    }
}

/* The ribs of a new environment, from the innermost and its first field on: how many variables are left for them, in which field the last one is, and which
   variable has the outermost one. */
static PER_THREAD uint32_t variables_left, last_field, outermost;

void begin_ribs(uint32_t variables) {
    variables_left = variables;
    last_field = 0;
}

void bind(value v) {
    uint32_t fields = 1 + (variables_left < IN_RIB ? variables_left : IN_RIB);
    if (last_field == 0) make(outermost = new_env, WORD(RIB, 0), fields);
    else if (last_field == IN_RIB) {
        make(S1, WORD(RIB, 0), fields);
        set(outermost, 0, S1);
        copy(outermost = OUTER, S1);
        last_field = 0;
    }
    last_field++;
    variables_left--;
    if (v.reg != NOWHERE || v.word != EMPTY) set(outermost, last_field, in_variable(v, T0));
}

/* The environment becomes the new one, whose outermost rib is followed by this one. */
void end_ribs(uint32_t parent) {
    if (last_field == 0) copy(new_env, parent);
    else if (parent != NIL) set(outermost, 0, parent);
    swap(&env, &new_env);
}

static void check_arity(uint32_t arity, uint32_t n) {
    uint32_t least = arity & LEAST;
    if (n < least || (n > least && !(arity & LISTED))) fail("a procedure of %u operands got %u", (unsigned)least, (unsigned)n);
}

/* Enters a lambda: its variables are the operands, and what its body defines. The parent is where it was made. If no rib is made there is a safe point, so
   that each loop has one. */
static uint32_t enter(const struct node *lambda, uint32_t parent, uint32_t from, uint32_t n, int has_frame) {
    uint32_t least = lambda->b & LEAST, listed = (lambda->b & LISTED) != 0, defined;
    check_arity(lambda->b, n);
    if (!lambda->c) pass();
    begin_ribs(lambda->c);
    for (defined = lambda->c - least - listed; defined; defined--) bind(plain(EMPTY));
    if (listed) {
        collect(from, n, least);
        bind(here(OPERANDS));
    }
    for (n = least; n; n--) bind(operand_from(from, n, T0));
    if (has_frame) drop_frames(&code[from]);
    end_ribs(lambda->b & TOP ? NIL : parent);
    return lambda->a;
}

/* Goes on by the continuation with this word, whose frames are in FN, in the future that it was made in. */
static uint32_t go_back(uint32_t w, value v) {
    if (DATA(w) != future_now) fail("a continuation is called outside its future");
    pass();
    give(v);
    forget_frames();
    copy(k, FN);
    return RETURN;
}

static uint32_t apply_primitive(uint32_t primitive, uint32_t n);

uint32_t apply(void) {
    uint32_t w = word(T0), n = list_length(here(OPERANDS));
    if (KIND(w) == PRIMITIVE) return apply_primitive(DATA(w), n);
    if (KIND(w) != CLOSURE && KIND(w) != CONTINUATION) fail_at(here(T0), "a procedure");
    get(FN, T0, 0);
    if (KIND(w) == CLOSURE) {
        reversed(T7, OPERANDS);
        return enter(&code[DATA(w)], FN, FROM_LIST, n, 0);
    }
    check_arity(1, n);
    get(VAL, OPERANDS, 0);
    return go_back(w, here(VAL));
}

/* Calls what is in T0 with the continuation. */
static uint32_t with_continuation(void) {
    uint32_t w = word(T0);
    frames_to_heap();
    make(VAL, WORD(CONTINUATION, future_now), 1);
    set(VAL, 0, k);
    give(here(VAL));
    if (KIND(w) == CLOSURE) {
        get(FN, T0, 0);
        return enter(&code[DATA(w)], FN, FROM_VALUE, 1, 0);
    }
    pair(OPERANDS, VAL, NIL, 0);
    return apply();
}

static void next_operand(uint32_t t) {
    get(t, OPERANDS, 0);
    get(OPERANDS, OPERANDS, 1);
}

/* A primitive of two, over all operands: what it came to goes on with the next; of a comparison, all neighbours have to be so. */
static value over_all(uint32_t primitive, uint32_t n) {
    int chained = primitives[primitive].mode == CHAINED;
    value a[2], v = truth(1);
    next_operand(T0);
    a[0] = here(T0);
    while (--n) {
        next_operand(T1);
        a[1] = here(T1);
        v = invoke(primitive, a, 2, T3);
        if (chained && !is_true(v)) return v;
        if (chained) v = a[1];
        if (v.reg != NOWHERE) copy(T0, v.reg);
        a[0] = v.reg == NOWHERE ? v : here(T0);
    }
    return chained ? truth(1) : a[0];
}

/* Calls a primitive with the list of n operands in OPERANDS. */
static uint32_t apply_primitive(uint32_t primitive, uint32_t n) {
    const struct primitive *it = &primitives[primitive];
    value a[3];
    uint32_t i;
    if (n < it->least || (n > it->most && (it->mode == FIXED || it->mode >= APPLY))) fail("%s: %u operands are not what it takes", it->name, (unsigned)n);
    if (it->mode == WHOLE) {
        a[0] = here(OPERANDS);
        return give(invoke(primitive, a, 1, VAL));
    }
    if (n > it->most) return give(over_all(primitive, n));
    for (i = 0; i < n; i++) {
        next_operand(T0 + i);
        a[i] = here(T0 + i);
    }
    if (it->mode == CALLCC) return with_continuation();
    if (it->mode == TOUCH) return touch();
    if (it->mode < APPLY) return give(invoke(primitive, a, n, T3));
    copy(OPERANDS, T1);
    return apply();
}

static uint32_t touch_at(value v) {
    if (v.reg == NOWHERE) return give(v);
    if (v.reg != T0) copy(T0, v.reg);
    return touch();
}

/* A call of a primitive: with its operands in variables if they are few. */
static uint32_t by_primitive(uint32_t primitive, uint32_t pc, int has_frame) {
    const struct node *n = &code[pc];
    const struct primitive *it = &primitives[primitive];
    int few = n->op == PRIM || ((it->mode < WHOLE || it->mode == TOUCH) && n->c >= it->least && n->c <= it->most);
    value a[3];
    uint32_t i;
    if (few)
        for (i = 0; i < n->c; i++)
            if (!operands[n->b + n->c + i + 1]) a[i] = operand(n, i + 1, T0 + i);
    if (few)
        for (i = 0; i < n->c; i++)
            if (operands[n->b + n->c + i + 1]) a[i] = operand(n, i + 1, T0 + i);
    if (!few) collect(pc, n->c, 0);
    if (has_frame) drop_frames(n);
    at_line(n);
    if (!few) return apply_primitive(primitive, n->c);
    return it->mode == TOUCH ? touch_at(a[0]) : give(invoke(primitive, a, n->c, n->c == 1 ? VAL : T3));
}

/* A call all of whose operands are simple, or have been computed. */
uint32_t complete(uint32_t pc, int has_frame) {
    const struct node *n = &code[pc];
    value f;
    uint32_t w;
    if (n->op == PRIM) return by_primitive(n->a, pc, has_frame);
    if (n->op == LET) return enter(&code[n->a], env, pc, n->c, has_frame);
    f = operand(n, 0, T0);
    w = word_of(f);
    if (KIND(w) == PRIMITIVE) return by_primitive(DATA(w), pc, has_frame);
    at_line(n);
    running = primitive_count;
    if (KIND(w) != CLOSURE && KIND(w) != CONTINUATION) fail_at(f, "a procedure");
    if (KIND(w) == CONTINUATION || !(code[DATA(w)].b & TOP)) get(FN, f.reg, 0);
    if (KIND(w) == CLOSURE) return enter(&code[DATA(w)], FN, pc, n->c, has_frame);
    check_arity(1, n->c);
    return go_back(w, operand(n, 1, VAL));
}
