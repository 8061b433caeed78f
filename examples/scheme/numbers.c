/* Numbers: integers of 32 bits, which fail by name if a result has more, and flonums. An integer of 28 bits is a word; a wider one, and a flonum, lies
   beside its object. */
#include "primitives.h"

#include <math.h>
#include <stdlib.h>
#include <string.h>

struct number { int is_flonum; int32_t n; double d; };

static double flonum_at(const unsigned char *at) {
    uint64_t bits = bits_at(at);
    double d;
    memcpy(&d, &bits, sizeof d);
    return d;
}

static struct number number_of(value v) {
    unsigned char *at = 0;
    uint32_t w = v.reg == NOWHERE ? v.word : look(v.reg, EMPTY, &at);
    struct number it = {0, 0, 0};
    if (KIND(w) == INTEGER) it.n = (int32_t)w / 16;
    else if (KIND(w) == WIDE) it.n = (int32_t)bits_at(at);
    else if (KIND(w) == FLONUM) {
        it.is_flonum = 1;
        it.d = flonum_at(at);
        return it;
    } else fail_at(v, "a number");
    it.d = it.n;
    return it;
}

value integer(int64_t n, uint32_t t) {
    if (n >= -(1 << 27) && n < 1 << 27) return plain(WORD(INTEGER, (uint32_t)n));
    if (n < INT32_MIN || n > INT32_MAX) fail("%s: the integer has more than 32 bits", primitives[running].name);
    make_beside(t, WORD(WIDE, 0));
    lay_bits(beside(t), (uint64_t)n);
    return here(t);
}

value flonum(double d, uint32_t t) {
    uint64_t bits;
    memcpy(&bits, &d, sizeof d);
    make_beside(t, WORD(FLONUM, 0));
    lay_bits(beside(t), bits);
    return here(t);
}

int is_number(value v) {
    uint32_t kind = KIND(word_of(v));
    return kind == INTEGER || kind == WIDE || kind == FLONUM;
}

/* Numbers are the same if they are of one kind and equal; what is a word by its word, and all else by the object. */
int are_eqv(value a, value b) {
    uint32_t x = word_of(a), y = word_of(b);
    if (KIND(x) <= EMPTY || KIND(y) <= EMPTY) return x == y;
    if (KIND(x) == KIND(y) && (KIND(x) == WIDE || KIND(x) == FLONUM)) return number_of(a).d == number_of(b).d;
    return same(a.reg, b.reg);
}

static double with(char op, double x, double y) { return op == '+' ? x + y : op == '-' ? x - y : op == '*' ? x * y : x / y; }

static value arithmetic(char op, value *a, uint32_t t) {
    struct number x = number_of(a[0]), y = number_of(a[1]);
    int64_t m = x.n, n = y.n;
    if (x.is_flonum || y.is_flonum) return flonum(with(op, x.d, y.d), t);
    if (op != '/') return integer(op == '+' ? m + n : op == '-' ? m - n : m * n, t);
    if (!n) fail("/: division by zero");
    return m % n ? flonum(x.d / y.d, t) : integer(m / n, t);
}

/* Of no operand the unit, and of one what the unit and it come to. */
static value fewer(char op, int32_t unit, value *a, uint32_t n, uint32_t t) {
    value both[2];
    both[0] = plain(WORD(INTEGER, (uint32_t)unit));
    both[1] = n ? a[0] : both[0];
    return n ? arithmetic(op, both, t) : both[0];
}

value p_add(value *a, uint32_t n, uint32_t t) { return n < 2 ? fewer('+', 0, a, n, t) : arithmetic('+', a, t); }
value p_multiply(value *a, uint32_t n, uint32_t t) { return n < 2 ? fewer('*', 1, a, n, t) : arithmetic('*', a, t); }
value p_subtract(value *a, uint32_t n, uint32_t t) { return n < 2 ? fewer('-', 0, a, n, t) : arithmetic('-', a, t); }
value p_divide(value *a, uint32_t n, uint32_t t) { return n < 2 ? fewer('/', 1, a, n, t) : arithmetic('/', a, t); }

static value chosen(value *a, uint32_t n, uint32_t t, int second) {
    struct number x = number_of(a[0]);
    UNUSED(n, t);
    if (n == 1) return a[0];
    return (x.d < number_of(a[1]).d) == second ? a[1] : a[0];
}
value p_max(value *a, uint32_t n, uint32_t t) { return chosen(a, n, t, 1); }
value p_min(value *a, uint32_t n, uint32_t t) { return chosen(a, n, t, 0); }

#define COMPARES(name, op) value name(value *a, uint32_t n, uint32_t t) { UNUSED(n, t); return truth(number_of(a[0]).d op number_of(a[1]).d); }
COMPARES(p_equals, ==)
COMPARES(p_less, <)
COMPARES(p_greater, >)
COMPARES(p_at_most, <=)
COMPARES(p_at_least, >=)

static int64_t whole(value v) {
    struct number x = number_of(v);
    if (x.is_flonum) fail_at(v, "an exact integer");
    return x.n;
}
static int64_t divisor(value v) {
    int64_t n = whole(v);
    if (!n) fail("%s: division by zero", primitives[running].name);
    return n;
}
value p_quotient(value *a, uint32_t n, uint32_t t) { (void)n; return integer(whole(a[0]) / divisor(a[1]), t); }
value p_remainder(value *a, uint32_t n, uint32_t t) { (void)n; return integer(whole(a[0]) % divisor(a[1]), t); }
value p_modulo(value *a, uint32_t n, uint32_t t) {
    int64_t x = whole(a[0]), y = divisor(a[1]), r = x % y;
    (void)n;
    return integer(r && (r < 0) != (y < 0) ? r + y : r, t);
}

value p_is_number(value *a, uint32_t n, uint32_t t) { UNUSED(n, t); return truth(is_number(a[0])); }
value p_is_exact(value *a, uint32_t n, uint32_t t) { UNUSED(n, t); return truth(!number_of(a[0]).is_flonum); }
value p_is_integer(value *a, uint32_t n, uint32_t t) { UNUSED(n, t); return truth(is_number(a[0]) && floor(number_of(a[0]).d) == number_of(a[0]).d); }
value p_is_zero(value *a, uint32_t n, uint32_t t) { UNUSED(n, t); return truth(number_of(a[0]).d == 0); }
value p_is_positive(value *a, uint32_t n, uint32_t t) { UNUSED(n, t); return truth(number_of(a[0]).d > 0); }
value p_is_negative(value *a, uint32_t n, uint32_t t) { UNUSED(n, t); return truth(number_of(a[0]).d < 0); }

value p_to_inexact(value *a, uint32_t n, uint32_t t) { (void)n; return flonum(number_of(a[0]).d, t); }
value p_to_exact(value *a, uint32_t n, uint32_t t) {
    double d = number_of(a[0]).d;
    (void)n;
    if (floor(d) != d) fail_at(a[0], "an integer");
    return integer(fabs(d) < 1e18 ? (int64_t)d : INT64_MAX, t);
}

/* Rounds halves to the even side. */
static double rounded(double d) {
    double down = floor(d), over = d - down;
    return over < 0.5 || (over == 0.5 && fmod(down, 2) == 0) ? down : down + 1;
}
static double truncated(double d) { return d < 0 ? ceil(d) : floor(d); }

/* Of an integer, itself. */
static value to_whole(value v, double (*by)(double), uint32_t t) {
    struct number x = number_of(v);
    return x.is_flonum ? flonum(by(x.d), t) : integer(x.n, t);
}
value p_floor(value *a, uint32_t n, uint32_t t) { (void)n; return to_whole(a[0], floor, t); }
value p_round(value *a, uint32_t n, uint32_t t) { (void)n; return to_whole(a[0], rounded, t); }
value p_truncate(value *a, uint32_t n, uint32_t t) { (void)n; return to_whole(a[0], truncated, t); }

value p_sqrt(value *a, uint32_t n, uint32_t t) {
    struct number x = number_of(a[0]);
    double root = sqrt(x.d);
    (void)n;
    return !x.is_flonum && root == floor(root) ? integer((int64_t)root, t) : flonum(root, t);
}
value p_exp(value *a, uint32_t n, uint32_t t) { (void)n; return flonum(exp(number_of(a[0]).d), t); }
value p_log(value *a, uint32_t n, uint32_t t) { (void)n; return flonum(log(number_of(a[0]).d), t); }
value p_sin(value *a, uint32_t n, uint32_t t) { (void)n; return flonum(sin(number_of(a[0]).d), t); }
value p_cos(value *a, uint32_t n, uint32_t t) { (void)n; return flonum(cos(number_of(a[0]).d), t); }
value p_atan(value *a, uint32_t n, uint32_t t) { (void)n; return flonum(atan(number_of(a[0]).d), t); }

/* The number that the text is, or #f. */
value number_read(const char *text, uint32_t t) {
    const char *digits = text + (*text == '-' || *text == '+');
    size_t length = strlen(digits);
    double d;
    if (!*digits || strspn(digits, "0123456789.eE+-") != length || !strpbrk(digits, "0123456789") || strchr("eE+-", *digits)) return truth(0);
    if (strspn(digits, "0123456789") == length) {
        if (length > 10) fail("the integer %s has more than 32 bits", text);
        running = primitive_named("string->number");
        return integer(strtoll(text, 0, 10), t);
    }
    d = strtod(text, (char **)&digits);
    return *digits ? truth(0) : flonum(d, t);
}

/* A flonum by 15 digits, or by 16 or 17 if they say more. */
void number_text(value v, char *to) {
    struct number x = number_of(v);
    int digits = 15;
    if (!x.is_flonum) {
        sprintf(to, "%d", (int)x.n);
        return;
    }
    do sprintf(to, "%.*g", digits, x.d);
    while (digits++ < 17 && strtod(to, 0) != x.d);
    if (!strpbrk(to, ".einf")) strcat(to, ".0");
}
