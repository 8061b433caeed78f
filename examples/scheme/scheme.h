/* What the parts of the interpreter share: what a word of an object says, which variable is for what, the nodes of compiled code, and the parts' functions. */
#ifndef SCHEME_H
#define SCHEME_H

#include "heap.h"

#include <setjmp.h>
#include <stdarg.h>
#include <stdint.h>
#include <stdio.h>

/* What an object is: the lower four bits of its word. The upper 28 are its data: a number, a symbol's or a primitive's index, a length, a node, the line from
   which a pair was read, a future's number and state. Up to EMPTY the word says all, and nil is the empty list. A WIDE integer and a FLONUM lie beside their
   objects. A RIB is what no program has as a value: a rib, a frame, a part of a tree, what is left to do. */
enum kind { INTEGER, CONSTANT, CHARACTER, SYMBOL, PRIMITIVE, EMPTY, PAIR, CLOSURE, WEAK, CONTINUATION, STRING, VECTOR, WIDE, FLONUM, RIB, FUTURE };

/* Constants: #f, #t, and what an expression for its effect comes to. */
enum { NO, YES, NOTHING };

#define WORD(kind, data) ((uint32_t)(data) << 4 | (uint32_t)(kind))
#define KIND(word) ((word) & 15u)
#define DATA(word) ((word) >> 4)

/* No number of a place, a primitive, a symbol or a node. */
#define NONE 0xffffffffu

/* The variables of a thread. The places' tree, #f, #t, what is always nil, and a stack for the reader, the compiler and the printer; two for the continuation
   and two for the environment, of which the machine uses one and fills the other; a closure's environment; the outermost rib of a new one; a list of operands;
   scratch; the value; eight for operands; and from CACHE on the places that were used last. */
enum {
    PLACES, FALSE_, TRUE_, NIL, STACK, K0, K1, ENV0, ENV1, FN, OUTER, OPERANDS, S0, S1, S2, VAL, T0, T1, T2, T3, T4, T5, T6, T7, S3, S4, CACHE
};

/* The root's fields: the places' tree, the tasks that no thread has begun, the pair of #f and #t, and the future that is the expression at the top. */
enum { ROOT_PLACES, ROOT_TASKS, ROOT_CONSTANTS, ROOT_TOP };

/* A value as C has it: in a variable, or, if that is NOWHERE, a word that no object holds yet. */
typedef struct value { uint32_t reg, word; } value;
enum { NOWHERE = 255 };

static inline uint32_t word(uint32_t v) { return word_or(v, EMPTY); }
static inline value here(uint32_t reg) { value v = {reg, 0}; v.reg = reg; return v; }
static inline value plain(uint32_t word_) { value v = {NOWHERE, 0}; v.word = word_; return v; }
static inline value truth(int it) { return plain(WORD(CONSTANT, it ? YES : NO)); }
static inline value nothing_(void) { return plain(WORD(CONSTANT, NOTHING)); }
static inline uint32_t word_of(value v) { return v.reg == NOWHERE ? v.word : word(v.reg); }
static inline int is_true(value v) { return word_of(v) != WORD(CONSTANT, NO); }

/* The variable that has the value: t, with a new object in it, if none had. */
static inline uint32_t in_variable(value v, uint32_t t) {
    if (v.reg != NOWHERE) return v.reg;
    if (v.word == EMPTY) return NIL;
    if (v.word == WORD(CONSTANT, NO)) return FALSE_;
    if (v.word == WORD(CONSTANT, YES)) return TRUE_;
    make(t, v.word, 0);
    return t;
}

/* t becomes a new pair, of values that aren't in t. */
static inline void pair(uint32_t t, uint32_t first, uint32_t rest, uint32_t line) {
    make(t, WORD(PAIR, line), 2);
    set(t, 0, first);
    set(t, 1, rest);
}

/* Uses S2. */
static inline void push(uint32_t v) {
    pair(S2, v, STACK, 0);
    copy(STACK, S2);
}
static inline void drop(void) { get(STACK, STACK, 1); }
static inline void pop(uint32_t v) {
    get(v, STACK, 0);
    drop();
}

/* Compiled code: nodes, which lie in C's memory, each by its number.
       QUOTE word                      LOCAL links field             GLOBAL place                LAMBDA body arity variables
       PRIM primitive operands count   CALL operator operands count  LET lambda operands count   ARGUMENT call position next
       IF test then else               AND, OR, SEQ first second     EXTEND variables body       SETLOCAL value links field    SETGLOBAL value place */
enum op { QUOTE, LOCAL, GLOBAL, LAMBDA, PRIM, CALL, LET, ARGUMENT, IF, AND, OR, SEQ, EXTEND, SETLOCAL, SETGLOBAL };

/* How many variables a node needs to be computed without a frame. One that needs more than SIMPLE, or calls a closure, takes frames. */
enum { SIMPLE = 6, COMPLEX = 200 };

struct node { uint8_t op, needs; uint32_t line, a, b, c; };
extern struct node *code;
extern uint32_t *operands;

/* Ribs: an environment is a chain of objects with three variables each, from field 1 on; field 0 is the next. An arity is its least number of operands,
   LISTED where a list of the others follows, and TOP where no variables are around the lambda. */
enum { IN_RIB = 3, LISTED = 1u << 16, TOP = 1u << 17, LEAST = LISTED - 1, MOST = 128 };

/* Primitives: those of one to three operands, those that go on with two until none is left, that compare each two neighbours, that take the list of all
   operands, and the three that the machine does itself. */
enum mode { FIXED, FOLDED, CHAINED, WHOLE, APPLY, CALLCC, TOUCH };
struct primitive { const char *name; uint32_t least, most; enum mode mode; value (*call)(value *a, uint32_t n, uint32_t t); };
extern const struct primitive primitives[];
extern const uint32_t primitive_count;
/* The primitive that runs, for what it says if it fails. */
extern PER_THREAD uint32_t running;

/* output.c. What a thread prints is gathered in a text of its own, until it is written as one piece. */
void out(const char *format, ...);
void out_all(const char *format, va_list rest);
void out_char(int c);
void out_write(void);
const char *out_text(uint32_t *length);
void out_forget(void);
void out_close(void);

/* errors.c. The line that the machine is at; where a failure goes. */
extern PER_THREAD uint32_t line_now;
extern PER_THREAD jmp_buf *handler;
extern const char *file_name;
/* Says what is wrong, and ends what is under way: what is said is the text that the thread has gathered. */
void fail(const char *format, ...);
/* The value isn't what is wanted; if nothing is, it is the list of a message and of what that is about. */
void fail_at(value v, const char *wanted);
/* A failure once more, by the text that was said. */
void fail_again(uint32_t text);

/* primitives.c */
uint32_t primitive_named(const char *name);

/* names.c. The number of a symbol; its name, its place and its primitive, or NONE. */
uint32_t symbol(const char *name, uint32_t length);
const char *symbol_name(uint32_t symbol);
uint32_t *symbol_place(uint32_t symbol);
uint32_t *symbol_primitive(uint32_t symbol);
/* A place: a new one, its value, and whether it has one. */
uint32_t new_place(void);
void bind_place(uint32_t place, uint32_t v);
int is_bound(uint32_t place);
void place_value(uint32_t to, uint32_t place);
/* The primitives get their names, and the root the places' tree; a thread learns of it. */
void names_open(void);
void names_join(void);

/* reader.c. VAL becomes what is read next from a file or a text, whose lines count if it isn't the interpreter's own; 0 at the end of the input. */
struct source { FILE *file; const char *text; uint32_t line; int is_ours; };
int read_next(struct source *from);

/* printer.c */
void print(value v, int is_written);

/* compile.c. The node of the expression in VAL. */
uint32_t compile_top(void);

/* machine.c. Goes on from a node until the value is there, or the thread is to begin another task: HALT or SWITCH. */
uint32_t evaluate(uint32_t pc);
/* Forgets all variables but the continuation and those that every thread keeps. */
void machine_reset(void);

/* futures.c. Threads for futures; the value of a node, when all futures that began meanwhile have ended. */
void futures_open(uint32_t threads);
void futures_close(void);
value run(uint32_t pc);

/* numbers.c */
value integer(int64_t n, uint32_t t);
value flonum(double d, uint32_t t);
value number_read(const char *text, uint32_t t);
void number_text(value v, char *to);
int is_number(value v);
int are_eqv(value a, value b);

/* vectors.c. A leaf of a tree with so many of them; the elements of a vector as a list; strings. */
void tree_get(uint32_t to, uint32_t tree, uint32_t length, uint32_t i);
void tree_set(uint32_t tree, uint32_t length, uint32_t i, uint32_t v);
void vector_list(uint32_t to, uint32_t vector);
void new_string(uint32_t t, const char *text, uint32_t length);
int string_byte(uint32_t string, uint32_t i);

/* lists.c */
uint32_t list_length(value list);
void reversed(uint32_t to, uint32_t list);

#endif
