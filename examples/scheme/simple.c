/* What is simple is computed at once, without frames: constants, variables, and primitives of what is simple. */
#include "machine.h"

/* The value becomes this one. */
uint32_t give(value v) {
    val = v;
    if (v.reg != NOWHERE && v.reg != VAL) {
        copy(VAL, v.reg);
        val = here(VAL);
    }
    return RETURN;
}

value invoke(uint32_t primitive, value *a, uint32_t n, uint32_t t) {
    value v;
    running = primitive;
    v = primitives[primitive].call(a, n, t);
    if (v.reg == NOWHERE || v.reg == t) return v;
    copy(t, v.reg);
    return here(t);
}

static value simple_primitive(const struct node *n, uint32_t t) {
    const uint32_t *of = operands + n->b;
    value a[3];
    uint32_t i;
    if (n->c == 1) a[0] = simple(of[0], t);
    else
        for (i = 0; i < n->c; i++) a[i] = simple(of[i], t + 1 + i);
    at_line(n);
    return invoke(n->a, a, n->c, t);
}

/* The rib so many links up: in S0, if it isn't the innermost. */
static uint32_t rib_at(uint32_t links) {
    if (!links) return env;
    get(S0, env, 0);
    while (--links) get(S0, S0, 0);
    return S0;
}

static void unbound(const struct node *n, uint32_t name) {
    at_line(n);
    fail("%s has no value", symbol_name(name));
}

void assign(const struct node *n, value v) {
    uint32_t from = in_variable(v, S3);
    if (n->op == SETLOCAL) set(rib_at(n->b), n->c, from);
    else {
        if (n->c != NONE && !is_bound(n->b)) unbound(n, n->c);
        bind_place(n->b, from);
    }
}

/* A simple node's value. It lies in t, in a variable of a constant, or in none. */
value simple(uint32_t pc, uint32_t t) {
    for (;;) {
        const struct node *n = &code[pc];
        value v;
        switch (n->op) {
        case QUOTE: return plain(n->a);
        case LOCAL: get(t, rib_at(n->a), n->b); return here(t);
        case GLOBAL:
            if (!is_bound(n->a)) unbound(n, n->b);
            place_value(t, n->a);
            return here(t);
        case LAMBDA:
            make(t, WORD(CLOSURE, pc), 1);
            set(t, 0, env);
            return here(t);
        case PRIM: return simple_primitive(n, t);
        case IF: pc = is_true(simple(n->a, t)) ? n->b : n->c; break;
        case AND: case OR:
            v = simple(n->a, t);
            if (is_true(v) == (n->op == OR)) return v;
            pc = n->b;
            break;
        case SEQ:
            simple(n->a, t);
            pc = n->b;
            break;
        default:
            assign(n, simple(n->a, t));
            return nothing_();
        }
    }
}
