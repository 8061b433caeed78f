/*
 * A term rewriter: polynomials as terms in the heap, differentiated and simplified by rewriting, over the integers below a prime. The answers are known: the
 * coefficients of the polynomial are computed beside it in C, and so is its value at points. Arguments: factors, rounds, cells.
 *
 * A term is an object: its value says what it is, its fields are its parts. What a recursive call has to keep lies on a stack, which is a list in the heap.
 */
#include "heap.h"

/* What a term is, in the upper four bits of its value; the number of a constant is in the lower 28. A list has cells, and the cells of the stack. */
enum { CONSTANT, VARIABLE, SUM, PRODUCT, CELL };

static const uint32_t prime = 268435399u;

/* Registers: the answer, two parts, scratch, and the stack. */
enum { ANSWER = 0, LEFT = 1, RIGHT = 2, THIRD = 3, FOURTH = 4, SCRATCH = 30, STACK = 31 };

static mh_mutator m;
static struct pause pause_;
static uint64_t made, rewritten;

static uint32_t plus(uint32_t a, uint32_t b) { return (uint32_t)(((uint64_t)a + b) % prime); }
static uint32_t times(uint32_t a, uint32_t b) { return (uint32_t)((uint64_t)a * b % prime); }

static void object(uint32_t v, uint32_t kind, uint32_t number_of) {
    MUST(timed_make(&pause_, &m, v, kind << 28 | number_of));
    made++;
}

/* v becomes a term of this kind with these parts. */
static void term(uint32_t v, uint32_t kind, uint32_t left, uint32_t right) {
    object(SCRATCH, kind, 0);
    MUST(mh_set(&m, SCRATCH, 0, left));
    MUST(mh_set(&m, SCRATCH, 1, right));
    MUST(mh_copy(&m, v, SCRATCH));
    MUST(mh_forget(&m, SCRATCH));
}

static void push(uint32_t v) { term(STACK, CELL, v, STACK); }
static void pop(uint32_t v) {
    MUST(mh_get(&m, v, STACK, 0));
    MUST(mh_get(&m, STACK, STACK, 1));
}

static uint32_t kind_of(uint32_t v, uint32_t *number_of) {
    uint32_t value = 0;
    MUST(mh_value(&m, v, &value));
    if (number_of) *number_of = value & 0xfffffffu;
    return value >> 28;
}

static int is_constant(uint32_t v, uint32_t *number_of) { return kind_of(v, number_of) == CONSTANT; }

static void parts(uint32_t v, uint32_t left, uint32_t right) {
    MUST(mh_get(&m, SCRATCH, v, 0));
    MUST(mh_get(&m, right, v, 1));
    MUST(mh_copy(&m, left, SCRATCH));
    MUST(mh_forget(&m, SCRATCH));
}

/* ANSWER becomes the sum or the product of LEFT and RIGHT, by the rules 0 + t = t, t + 0 = t, 0 * t = 0, 1 * t = t, t * 1 = t, and constants are computed.
   A constant goes to the left, and two of them in one product or sum become one. */
static void join(uint32_t kind) {
    uint32_t a = 0, b = 0, c = 0;
    uint32_t unit = kind == SUM ? 0 : 1;
    rewritten++;
    if (is_constant(RIGHT, &b)) {
        if (is_constant(LEFT, &a)) {
            object(ANSWER, CONSTANT, kind == SUM ? plus(a, b) : times(a, b));
            return;
        }
        MUST(mh_copy(&m, SCRATCH, LEFT));
        MUST(mh_copy(&m, LEFT, RIGHT));
        MUST(mh_copy(&m, RIGHT, SCRATCH));
        MUST(mh_forget(&m, SCRATCH));
    }
    if (is_constant(LEFT, &a)) {
        if (a == unit) { MUST(mh_copy(&m, ANSWER, RIGHT)); return; }
        if (kind == PRODUCT && a == 0) { MUST(mh_copy(&m, ANSWER, LEFT)); return; }
        if (kind_of(RIGHT, 0) == kind) {
            parts(RIGHT, THIRD, FOURTH);
            if (is_constant(THIRD, &c)) {
                object(LEFT, CONSTANT, kind == SUM ? plus(a, c) : times(a, c));
                MUST(mh_copy(&m, RIGHT, FOURTH));
                join(kind);
                return;
            }
        }
    }
    term(ANSWER, kind, LEFT, RIGHT);
}

/* ANSWER becomes the simplest form of itself. */
static void simplify(void) {
    uint32_t kind = kind_of(ANSWER, 0);
    if (kind != SUM && kind != PRODUCT) return;
    parts(ANSWER, ANSWER, RIGHT);
    push(RIGHT);
    simplify();
    pop(RIGHT);
    push(ANSWER);
    MUST(mh_copy(&m, ANSWER, RIGHT));
    simplify();
    MUST(mh_copy(&m, RIGHT, ANSWER));
    pop(LEFT);
    join(kind);
}

/* ANSWER becomes its derivative: (s + t)' = s' + t', (s t)' = s' t + s t'. */
static void differentiate(void) {
    uint32_t kind = kind_of(ANSWER, 0);
    rewritten++;
    if (kind == CONSTANT || kind == VARIABLE) {
        object(ANSWER, CONSTANT, kind == VARIABLE);
        return;
    }
    parts(ANSWER, LEFT, RIGHT);
    push(LEFT);
    push(RIGHT);
    MUST(mh_copy(&m, ANSWER, LEFT));
    differentiate();
    pop(RIGHT);
    pop(LEFT);
    push(ANSWER);
    push(LEFT);
    push(RIGHT);
    MUST(mh_copy(&m, ANSWER, RIGHT));
    differentiate();
    pop(RIGHT);
    pop(LEFT);
    pop(THIRD); /* s, t, s', t' are in LEFT, RIGHT, THIRD, ANSWER */
    if (kind == SUM) {
        term(ANSWER, SUM, THIRD, ANSWER);
        return;
    }
    term(THIRD, PRODUCT, THIRD, RIGHT);
    term(ANSWER, PRODUCT, LEFT, ANSWER);
    term(ANSWER, SUM, THIRD, ANSWER);
}

/* The value of the term in v at x. */
static uint32_t value_at(uint32_t v, uint32_t x) {
    uint32_t number_of = 0, kind = kind_of(v, &number_of), a, b;
    uint32_t w = v + 1;
    if (kind == CONSTANT) return number_of;
    if (kind == VARIABLE) return x;
    MUST(mh_get(&m, w, v, 1));
    push(w);
    MUST(mh_get(&m, w, v, 0));
    MUST(mh_copy(&m, v, w));
    a = value_at(v, x);
    pop(v);
    b = value_at(v, x);
    return kind == SUM ? plus(a, b) : times(a, b);
}

/* What the coefficients say, beside. */
enum { DEGREE = 64 };
struct known { uint32_t of[DEGREE + 1]; uint32_t degree; };

static void known_factor(struct known *k, uint32_t root) {
    uint32_t i;
    k->of[k->degree + 1] = 0;
    for (i = k->degree + 1; i > 0; i--) k->of[i] = plus(times(k->of[i], root), k->of[i - 1]);
    k->of[0] = times(k->of[0], root);
    k->degree++;
}

static void known_derivative(struct known *k) {
    uint32_t i;
    for (i = 0; i < k->degree; i++) k->of[i] = times(k->of[i + 1], i + 1);
    k->of[k->degree] = 0;
    if (k->degree) k->degree--;
}

static uint32_t known_at(const struct known *k, uint32_t x) {
    uint32_t i, y = 0;
    for (i = k->degree + 1; i-- > 0;) y = plus(times(y, x), k->of[i]);
    return y;
}

static void compare(const struct known *k, const char *what) {
    uint32_t x;
    for (x = 0; x <= k->degree + 1; x++) {
        MUST(mh_copy(&m, 5, ANSWER));
        wrong(what, value_at(5, times(x, 1000003)), known_at(k, times(x, 1000003)));
    }
    MUST(mh_forget(&m, 5));
    MUST(mh_forget(&m, 6));
}

/* The product of x + r over so many numbers r, which begin with this seed. */
static void factors(uint32_t many, uint32_t seed, struct known *k) {
    uint32_t i;
    k->degree = 0;
    k->of[0] = 1;
    object(ANSWER, CONSTANT, 1);
    for (i = 0; i < many; i++) {
        seed = seed * 1664525u + 1013904223u;
        object(LEFT, VARIABLE, 0);
        object(RIGHT, CONSTANT, seed % prime);
        term(LEFT, SUM, LEFT, RIGHT);
        term(ANSWER, PRODUCT, ANSWER, LEFT);
        known_factor(k, seed % prime);
    }
}

int main(int count_of, char **words) {
    static mh_world world;
    static struct known known;
    uint32_t many = number(count_of, words, 1, 6), rounds = number(count_of, words, 2, 40);
    uint32_t cells = number(count_of, words, 3, 1u << 18), round, order;
    double from, took;
    if (many > DEGREE - 1) return 2;
    open_world(&world, cells, 2, 1);
    MUST(mh_take_mutator(&world, &m));
    MUST(mh_enter(&m));
    from = now();
    for (round = 0; round < rounds; round++) {
        factors(many, round, &known);
        compare(&known, "the polynomial at a point");
        for (order = 1; order <= many; order++) {
            differentiate();
            known_derivative(&known);
            simplify();
            compare(&known, "a derivative at a point");
        }
        wrong("the last derivative's kind", kind_of(ANSWER, 0), CONSTANT);
        MUST(mh_safe_point(&m));
    }
    took = now() - from;
    MUST(mh_leave(&m));
    MUST(mh_give_back(&world, &m));
    MUST(mh_close(&world));
    printf("%-13s %-12s factors %u rounds %u: %llu terms and cells, %llu rewritten, %.2f s, %.2f s of processors, %.0f MB, longest call %.2f ms\n",
           "rewriter", COLLECTOR, many, rounds, (unsigned long long)made, (unsigned long long)rewritten, took, processor(), megabytes(),
           pause_.longest * 1e3);
    return 0;
}
