/* Compiles an expression to nodes. The expression is in VAL; the form whose parts are compiled is on top of the stack in the heap. Variables are found by how
   many ribs up and in which field they lie; global ones and constants have places. */
#include "forms.h"

#include <stdlib.h>

struct node *code;
uint32_t *operands;
static uint32_t node_count, operand_count, nesting, form_line;

enum { DEEPEST = 2000 };

static uint32_t larger(uint32_t a, uint32_t b) { return a > b ? a : b; }

/* What a node needs whose parts are these: complex if one is. */
static uint32_t needs_of(enum op op, const struct node *n) {
    uint32_t all;
    switch (op) {
    case QUOTE: case LOCAL: case GLOBAL: case LAMBDA: return 1;
    case IF: all = larger(larger(code[n->a].needs, code[n->b].needs), code[n->c].needs); break;
    case AND: case OR: case SEQ: all = larger(code[n->a].needs, code[n->b].needs); break;
    case SETLOCAL: case SETGLOBAL: all = code[n->a].needs; break;
    default: return COMPLEX;
    }
    return all > SIMPLE ? COMPLEX : all;
}

uint32_t node(enum op op, uint32_t a, uint32_t b, uint32_t c) {
    struct node *n;
    if (node_count % 1024 == 0) code = realloc(code, (node_count + 1024) * sizeof *code);
    n = &code[node_count];
    n->op = (uint8_t)op;
    n->line = form_line;
    n->a = a;
    n->b = b;
    n->c = c;
    n->needs = (uint8_t)needs_of(op, n);
    return node_count++;
}

static void add_operand(uint32_t it) {
    if (operand_count % 1024 == 0) operands = realloc(operands, (operand_count + 1024) * sizeof *operands);
    operands[operand_count++] = it;
}

/* How many variables a primitive needs that has only simple operands: one that has one operand computes it where its result goes. */
static uint32_t primitive_needs(const uint32_t *args, uint32_t n) {
    uint32_t all = 1, i;
    for (i = 0; i < n; i++) all = larger(all, code[args[i]].needs + (n > 1 ? i + 1 : 0));
    return all > SIMPLE ? COMPLEX : all;
}

/* A call of a closure, of a lambda that let makes, or of a primitive. An operand that isn't simple has an ARGUMENT behind the operands, at which the machine
   goes on when it has its value; the first of these is once more behind them. Position 0 is the operator. */
uint32_t call(enum op op, uint32_t a, const uint32_t *args, uint32_t n) {
    uint32_t first = operand_count, it, i, later = 0;
    for (i = 0; i < n; i++) add_operand(args[i]);
    for (i = 0; i <= n + 1; i++) add_operand(0);
    it = node(op, a, first, n);
    if (op == PRIM && (code[it].needs = (uint8_t)primitive_needs(args, n)) != COMPLEX) return it;
    code[it].needs = COMPLEX;
    for (i = n + 1; i--;) {
        uint32_t part = i ? args[i - 1] : a;
        if ((!i && op != CALL) || code[part].needs <= SIMPLE) continue;
        later = node(ARGUMENT, it, i, later);
        operands[first + n + i] = operands[first + 2 * n + 1] = later;
    }
    return it;
}

/* A call of a primitive by its mode; 0 if it isn't one of two or three operands, as a comparison of three is. */
uint32_t primitive_call(uint32_t primitive, const uint32_t *args, uint32_t n) {
    const struct primitive *it = &primitives[primitive];
    uint32_t two[2], i;
    if (it->mode == WHOLE && n >= it->least) {
        two[1] = node(QUOTE, EMPTY, 0, 0);
        for (i = n; i--; two[1] = call(PRIM, primitive_named("cons"), two, 2)) two[0] = args[i];
        return call(PRIM, primitive, two + 1, 1);
    }
    if (it->mode == FOLDED && n > 2) {
        two[0] = args[0];
        for (i = 1; i < n; i++) {
            two[1] = args[i];
            two[0] = call(PRIM, primitive, two, 2);
        }
        return two[0];
    }
    return it->mode < WHOLE && n >= it->least && n <= it->most ? call(PRIM, primitive, args, n) : 0;
}

/* VAL becomes the part i of the form; 0 if it has none. */
int element(uint32_t i) {
    rest_from(i);
    if (KIND(word(VAL)) != PAIR) return 0;
    get(VAL, VAL, 0);
    return 1;
}

/* VAL becomes the list of the form's parts from i on, or what the form ends with before. */
void rest_from(uint32_t i) {
    get(VAL, STACK, 0);
    for (; i && KIND(word(VAL)) == PAIR; i--) get(VAL, VAL, 1);
}

uint32_t form_length(void) {
    get(VAL, STACK, 0);
    return list_length(here(VAL));
}

void add_name(struct scope *scope) {
    uint32_t w = word(VAL);
    if (KIND(w) != SYMBOL) fail_at(here(VAL), "a name for a variable");
    if (scope->count == MOST) fail("more than %d variables", (int)MOST);
    scope->name[scope->count++] = DATA(w);
}

/* Where a name lies: 0 if in no scope. The last variable of a scope lies in the first field of the innermost rib. */
static int find(struct scope *scope, uint32_t name, uint32_t *links, uint32_t *field) {
    uint32_t i;
    for (*links = 0; scope; *links += (scope->count + IN_RIB - 1) / IN_RIB, scope = scope->outer)
        for (i = scope->count; i--;)
            if (scope->name[i] == name) {
                *links += (scope->count - 1 - i) / IN_RIB;
                *field = 1 + (scope->count - 1 - i) % IN_RIB;
                return 1;
            }
    return 0;
}

/* Whether a name is in no scope. */
int is_free(struct scope *scope, uint32_t name) {
    uint32_t links, field;
    return !find(scope, name, &links, &field);
}

static uint32_t place_of(uint32_t name) {
    if (*symbol_place(name) == NONE) *symbol_place(name) = new_place();
    return *symbol_place(name);
}

/* A name that was never defined is the primitive's that has it. */
uint32_t reference(struct scope *scope, uint32_t name) {
    uint32_t links, field, it;
    if (find(scope, name, &links, &field)) return node(LOCAL, links, field, 0);
    if (*symbol_place(name) == NONE && *symbol_primitive(name) != NONE) return node(QUOTE, WORD(PRIMITIVE, *symbol_primitive(name)), 0, 0);
    it = place_of(name);
    return node(GLOBAL, it, name, 0);
}

uint32_t assignment(struct scope *scope, uint32_t name, uint32_t value_, int defines) {
    uint32_t links, field;
    if (find(scope, name, &links, &field)) return node(SETLOCAL, value_, links, field);
    return node(SETGLOBAL, value_, place_of(name), defines ? NONE : name);
}

/* What is in VAL, as it stands. */
uint32_t constant(void) {
    uint32_t w = word(VAL), it;
    if (KIND(w) <= EMPTY) return node(QUOTE, w, 0, 0);
    push(VAL);
    it = new_place();
    pop(VAL);
    bind_place(it, VAL);
    return node(GLOBAL, it, 0, 0);
}

static uint32_t application(struct scope *scope) {
    uint32_t args[MOST], n = form_length() - 1, i, w, it;
    if (n > MOST) fail("more than %d operands", (int)MOST);
    for (i = 0; i < n; i++) {
        element(i + 1);
        args[i] = compile(scope);
    }
    element(0);
    w = word(VAL);
    if (KIND(w) == SYMBOL && is_free(scope, DATA(w)) && *symbol_place(DATA(w)) == NONE && *symbol_primitive(DATA(w)) != NONE) {
        it = primitive_call(*symbol_primitive(DATA(w)), args, n);
        if (it) return it;
    }
    return call(CALL, compile(scope), args, n);
}

uint32_t compile(struct scope *scope) {
    uint32_t w = word(VAL), it, line = form_line;
    if (KIND(w) == SYMBOL) return reference(scope, DATA(w));
    if (KIND(w) == EMPTY) fail("() is no expression");
    if (KIND(w) != PAIR) return constant();
    if (++nesting > DEEPEST) fail("expressions are nested deeper than %d", DEEPEST);
    if (DATA(w)) form_line = line_now = DATA(w);
    push(VAL);
    element(0);
    w = word(VAL);
    if (KIND(w) != SYMBOL || !is_free(scope, DATA(w)) || !special_form(scope, DATA(w), &it)) it = application(scope);
    drop();
    form_line = line;
    nesting--;
    return it;
}

uint32_t compile_top(void) {
    nesting = 0;
    running = primitive_count;
    form_line = line_now;
    if (!node_count) node(QUOTE, EMPTY, 0, 0);
    return compile(0);
}
