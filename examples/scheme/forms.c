/* The special forms. The form is on top of the stack, as in compile.c. */
#include "forms.h"

#include <string.h>

uint32_t named(const char *name) { return symbol(name, (uint32_t)strlen(name)); }
uint32_t nothing_node(void) { return node(QUOTE, WORD(CONSTANT, NOTHING), 0, 0); }

void need(uint32_t least, const char *form) {
    if (form_length() < least) fail("%s: a part is missing", form);
}

/* Compiles part i of the form. */
uint32_t part(struct scope *scope, uint32_t i) {
    if (!element(i)) fail("a form lacks a part");
    return compile(scope);
}

/* Whether VAL is a form that begins with this name. */
int is_form(struct scope *scope, const char *name) {
    uint32_t w;
    if (KIND(word(VAL)) != PAIR) return 0;
    get(S0, VAL, 0);
    w = word(S0);
    return w == WORD(SYMBOL, named(name)) && is_free(scope, DATA(w));
}
int is_name(const char *name) { return word(VAL) == WORD(SYMBOL, named(name)); }

/* The parts from i on, one after the other. */
uint32_t sequence(struct scope *scope, uint32_t from) {
    uint32_t length = form_length(), i, all;
    if (from >= length) return nothing_node();
    all = part(scope, from);
    if (from + 1 == length) return all;
    i = sequence(scope, from + 1);
    return node(SEQ, all, i, 0);
}

/* The name that is defined by the definition in VAL. VAL becomes it. */
static void defined_name(void) {
    get(VAL, VAL, 1);
    if (KIND(word(VAL)) != PAIR) fail("define: a part is missing");
    get(VAL, VAL, 0);
    if (KIND(word(VAL)) == PAIR) get(VAL, VAL, 0);
}

/* A body from part i on: what is defined in it are variables of its scope. */
static uint32_t body(struct scope *scope, uint32_t from) {
    uint32_t i;
    for (i = from; element(i) && is_form(scope, "define"); i++) {
        defined_name();
        add_name(scope);
    }
    return sequence(scope, from);
}

/* A body in a scope of its own. */
static uint32_t block(struct scope *outer, uint32_t from) {
    struct scope inner = {0, 0, {0}};
    uint32_t it;
    inner.outer = outer;
    it = body(&inner, from);
    return inner.count ? call(LET, node(LAMBDA, it, 0, inner.count), 0, 0) : it;
}

static uint32_t lambda(struct scope *inner, uint32_t arity, uint32_t from) {
    uint32_t body_ = body(inner, from);
    struct scope *outer = inner->outer;
    while (outer && !outer->count) outer = outer->outer;
    return node(LAMBDA, body_, arity | (outer ? 0 : TOP), inner->count);
}

/* A lambda whose parameters are in VAL and whose body begins at part i. */
uint32_t lambda_of(struct scope *scope, uint32_t from) {
    struct scope inner = {0, 0, {0}};
    uint32_t arity;
    inner.outer = scope;
    copy(S1, VAL);
    for (; KIND(word(S1)) == PAIR; get(S1, S1, 1)) {
        get(VAL, S1, 0);
        add_name(&inner);
    }
    arity = inner.count;
    if (word(S1) != EMPTY) {
        copy(VAL, S1);
        add_name(&inner);
        arity |= LISTED;
    }
    return lambda(&inner, arity, from);
}

static uint32_t form_lambda(struct scope *scope) {
    need(3, "lambda");
    element(1);
    return lambda_of(scope, 2);
}

static uint32_t form_define(struct scope *scope) {
    uint32_t value_;
    need(2, "define");
    element(1);
    if (KIND(word(VAL)) == PAIR) {
        get(VAL, VAL, 1);
        value_ = lambda_of(scope, 2);
    } else value_ = part(scope, 2);
    element(1);
    if (KIND(word(VAL)) == PAIR) get(VAL, VAL, 0);
    if (KIND(word(VAL)) != SYMBOL) fail_at(here(VAL), "a name to define");
    return assignment(scope, DATA(word(VAL)), value_, 1);
}

static uint32_t form_set(struct scope *scope) {
    uint32_t value_;
    need(3, "set!");
    value_ = part(scope, 2);
    element(1);
    if (KIND(word(VAL)) != SYMBOL) fail_at(here(VAL), "a name to set");
    return assignment(scope, DATA(word(VAL)), value_, 0);
}

static uint32_t form_quote(struct scope *scope) {
    (void)scope;
    need(2, "quote");
    element(1);
    return constant();
}

static uint32_t form_if(struct scope *scope) {
    uint32_t test, then, length = form_length();
    need(3, "if");
    test = part(scope, 1);
    then = part(scope, 2);
    return node(IF, test, then, length > 3 ? part(scope, 3) : nothing_node());
}

static uint32_t form_when(struct scope *scope) {
    uint32_t test = part(scope, 1), then = sequence(scope, 2);
    return node(IF, test, then, nothing_node());
}
static uint32_t form_unless(struct scope *scope) {
    uint32_t test = part(scope, 1), otherwise = sequence(scope, 2);
    return node(IF, test, nothing_node(), otherwise);
}

static uint32_t form_begin(struct scope *scope) { return sequence(scope, 1); }

/* and, or: from part i on. */
static uint32_t chain(struct scope *scope, enum op op, uint32_t i, uint32_t length) {
    uint32_t first, second;
    if (length == 1) return node(QUOTE, WORD(CONSTANT, op == AND ? YES : NO), 0, 0);
    first = part(scope, i);
    if (i + 1 == length) return first;
    second = chain(scope, op, i + 1, length);
    return node(op, first, second, 0);
}
static uint32_t form_and(struct scope *scope) { return chain(scope, AND, 1, form_length()); }
static uint32_t form_or(struct scope *scope) { return chain(scope, OR, 1, form_length()); }

/* The bindings are the list in VAL: their names go to the first scope, and what they begin with is compiled in the other one, if it is wanted. */
static uint32_t bindings(struct scope *names, struct scope *scope, uint32_t *inits) {
    uint32_t n, i;
    push(VAL);
    n = form_length();
    for (i = 0; i < n && i < MOST; i++) {
        element(i);
        push(VAL);
        need(2, "a binding");
        if (inits) inits[i] = part(scope, 1);
        drop();
    }
    for (i = 0; i < n; i++) {
        element(i);
        get(VAL, VAL, 0);
        add_name(names);
    }
    drop();
    return n;
}

/* A loop by a name: a rib with the name, which becomes the lambda, and is called. The inits don't see the name. */
static uint32_t loop(uint32_t lambda_, const uint32_t *inits, uint32_t n) {
    uint32_t set_ = node(SETLOCAL, lambda_, 0, 1), call_ = call(CALL, node(LOCAL, 0, 1, 0), inits, n);
    return node(EXTEND, 1, node(SEQ, set_, call_, 0), 0);
}

static uint32_t form_let(struct scope *scope) {
    struct scope named_ = {0, 1, {NONE}}, inner = {0, 0, {0}};
    uint32_t inits[MOST], n, name;
    need(3, "let");
    element(1);
    if (KIND(word(VAL)) != SYMBOL) {
        inner.outer = scope;
        n = bindings(&inner, scope, inits);
        return call(LET, lambda(&inner, n, 2), inits, n);
    }
    name = DATA(word(VAL));
    named_.outer = scope;
    inner.outer = &named_;
    element(2);
    n = bindings(&inner, &named_, inits);
    named_.name[0] = name;
    return loop(lambda(&inner, n, 3), inits, n);
}

/* let* from binding i on: a let of one, in a scope of its own. */
static uint32_t let_star(struct scope *scope, uint32_t i) {
    struct scope inner = {0, 0, {0}};
    uint32_t init;
    inner.outer = scope;
    element(1);
    push(VAL);
    if (!element(i)) {
        drop();
        return block(scope, 2);
    }
    push(VAL);
    init = part(scope, 1);
    element(0);
    add_name(&inner);
    drop();
    drop();
    return let_over(&inner, init, let_star(&inner, i + 1));
}
static uint32_t form_let_star(struct scope *scope) { need(3, "let*"); return let_star(scope, 0); }

/* The body in a scope of one variable, which is what init comes to. */
uint32_t let_over(struct scope *inner, uint32_t init, uint32_t body_) { return call(LET, node(LAMBDA, body_, 1, inner->count), &init, 1); }

static uint32_t form_letrec(struct scope *scope) {
    struct scope inner = {0, 0, {0}}, unused = {0, 0, {0}};
    uint32_t inits[MOST], n, i, all;
    need(3, "letrec");
    inner.outer = scope;
    element(1);
    bindings(&inner, 0, 0);
    element(1);
    n = bindings(&unused, &inner, inits);
    all = block(&inner, 2);
    for (i = n; i--;) all = node(SEQ, assignment(&inner, inner.name[i], inits[i], 0), all, 0);
    return node(EXTEND, n, all, 0);
}

/* do: a loop whose name nobody can write. VAL becomes the step of binding i, or its variable. */
static void step_of(uint32_t i) {
    element(1);
    while (i--) get(VAL, VAL, 1);
    get(VAL, VAL, 0);
    get(S0, VAL, 1);
    get(S0, S0, 1);
    if (word(S0) != EMPTY) copy(VAL, S0);
    get(VAL, VAL, 0);
}

static uint32_t form_do(struct scope *scope) {
    struct scope named_ = {0, 1, {NONE}}, inner = {0, 0, {0}};
    uint32_t inits[MOST], steps[MOST], n, i, test, result, turn;
    need(3, "do");
    named_.outer = scope;
    inner.outer = &named_;
    element(1);
    n = bindings(&inner, &named_, inits);
    element(2);
    push(VAL);
    test = part(&inner, 0);
    result = sequence(&inner, 1);
    drop();
    for (i = 0; i < n; i++) {
        step_of(i);
        steps[i] = compile(&inner);
    }
    turn = call(CALL, node(LOCAL, (n + IN_RIB - 1) / IN_RIB, 1, 0), steps, n);
    turn = node(SEQ, sequence(&inner, 3), turn, 0);
    return loop(node(LAMBDA, node(IF, test, result, turn), n, n), inits, n);
}

static const struct { const char *name; uint32_t (*compile)(struct scope *); } forms[] = {
    {"quote", form_quote}, {"if", form_if}, {"define", form_define}, {"set!", form_set}, {"lambda", form_lambda}, {"let", form_let}, {"let*", form_let_star},
    {"letrec", form_letrec}, {"letrec*", form_letrec}, {"begin", form_begin}, {"and", form_and}, {"or", form_or}, {"when", form_when}, {"unless", form_unless},
    {"do", form_do}, {"cond", form_cond}, {"case", form_case}, {"quasiquote", form_quasiquote}, {"future", form_future}
};

int special_form(struct scope *scope, uint32_t name, uint32_t *made) {
    uint32_t i;
    for (i = 0; i < sizeof forms / sizeof *forms; i++)
        if (named(forms[i].name) == name) {
            *made = forms[i].compile(scope);
            return 1;
        }
    return 0;
}
