/* cond, case, quasiquote and future. */
#include "forms.h"

static uint32_t clauses(struct scope *scope, uint32_t i);

/* A clause with =>, whose test has a variable. */
static uint32_t sent(struct scope *scope, uint32_t test, uint32_t i) {
    struct scope inner = {0, 1, {NONE}};
    uint32_t it = node(LOCAL, 0, 1, 0), then;
    inner.outer = scope;
    then = call(CALL, part(&inner, 2), &it, 1);
    drop();
    return let_over(&inner, test, node(IF, it, then, clauses(&inner, i + 1)));
}

/* The clauses of a cond from part i on. */
static uint32_t clauses(struct scope *scope, uint32_t i) {
    uint32_t test, then;
    if (!element(i)) return nothing_node();
    push(VAL);
    element(0);
    if (is_name("else")) {
        then = sequence(scope, 1);
        drop();
        return then;
    }
    test = compile(scope);
    if (form_length() == 1) {
        drop();
        return node(OR, test, clauses(scope, i + 1), 0);
    }
    element(1);
    if (is_name("=>")) return sent(scope, test, i);
    then = sequence(scope, 1);
    drop();
    return node(IF, test, then, clauses(scope, i + 1));
}
uint32_t form_cond(struct scope *scope) { return clauses(scope, 1); }

/* The clauses of a case from part i on; the key is the one variable of the scope. */
static uint32_t keyed(struct scope *scope, uint32_t i) {
    uint32_t args[2], then;
    int is_else;
    if (!element(i)) return nothing_node();
    push(VAL);
    element(0);
    is_else = is_name("else");
    args[0] = node(LOCAL, 0, 1, 0);
    if (!is_else) args[1] = constant();
    then = sequence(scope, 1);
    drop();
    return is_else ? then : node(IF, call(PRIM, primitive_named("memv"), args, 2), then, keyed(scope, i + 1));
}
uint32_t form_case(struct scope *scope) {
    struct scope inner = {0, 1, {NONE}};
    uint32_t key;
    need(2, "case");
    key = part(scope, 1);
    inner.outer = scope;
    return let_over(&inner, key, keyed(&inner, 2));
}

/* What the template in VAL comes to, within so many quasiquotes. */
static uint32_t quasi(struct scope *scope, uint32_t depth) {
    uint32_t args[2], of, inner = depth;
    if (KIND(word(VAL)) == VECTOR) {
        vector_list(VAL, VAL);
        args[0] = quasi(scope, depth);
        return call(PRIM, primitive_named("list->vector"), args, 1);
    }
    if (KIND(word(VAL)) != PAIR) return constant();
    if (is_form(scope, "quasiquote")) inner++;
    else if (is_form(scope, "unquote")) inner--;
    push(VAL);
    if (!inner) {
        args[0] = part(scope, 1);
        drop();
        return args[0];
    }
    element(0);
    of = primitive_named("cons");
    if (depth == 1 && is_form(scope, "unquote-splicing")) {
        push(VAL);
        args[0] = part(scope, 1);
        drop();
        of = primitive_named("append");
    } else args[0] = quasi(scope, depth);
    rest_from(1);
    args[1] = quasi(scope, inner);
    drop();
    return call(PRIM, of, args, 2);
}
uint32_t form_quasiquote(struct scope *scope) {
    need(2, "quasiquote");
    element(1);
    return quasi(scope, 1);
}

/* What is to be computed is a procedure without operands. */
uint32_t form_future(struct scope *scope) {
    uint32_t procedure;
    need(2, "future");
    forget(VAL);
    procedure = lambda_of(scope, 1);
    return call(PRIM, primitive_named("%future"), &procedure, 1);
}
