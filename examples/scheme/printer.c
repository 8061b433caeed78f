/* Prints a value. What is left of the lists around it lies on the stack in the heap, so that a value is nested as deep as the heap allows. */
#include "scheme.h"

static void print_string(uint32_t v, uint32_t length, int is_written) {
    uint32_t i;
    if (is_written) out_char('"');
    for (i = 0; i < length; i++) {
        int c = string_byte(v, i);
        if (is_written && (c == '"' || c == '\\')) out_char('\\');
        if (is_written && c == '\n') out("\\n");
        else out_char(c);
    }
    if (is_written) out_char('"');
}

static void print_character(uint32_t c, int is_written) {
    if (!is_written) out_char((int)c);
    else if (c == ' ') out("#\\space");
    else if (c == '\n') out("#\\newline");
    else out("#\\%c", (int)c);
}

static void print_leaf(value v, int is_written) {
    static const char *constants[] = {"#f", "#t", "#<nothing>"};
    uint32_t w = word_of(v);
    char text[64];
    switch (KIND(w)) {
    case INTEGER: case WIDE: case FLONUM: number_text(v, text); out("%s", text); break;
    case CONSTANT: out("%s", constants[DATA(w)]); break;
    case CHARACTER: print_character(DATA(w), is_written); break;
    case SYMBOL: out("%s", symbol_name(DATA(w))); break;
    case EMPTY: out("()"); break;
    case STRING: print_string(v.reg, DATA(w), is_written); break;
    case PRIMITIVE: out("#<procedure %s>", primitives[DATA(w)].name); break;
    case FUTURE: out("#<future>"); break;
    case WEAK: out("#<weak-pair>"); break;
    default: out("#<procedure>"); break;
    }
}

/* After a datum: S0 becomes the next one of the innermost list. 0 if all lists are at their ends. */
static int next_datum(uint32_t *depth) {
    while (*depth) {
        uint32_t kind;
        get(S1, STACK, 0);
        kind = KIND(word(S1));
        if (kind == PAIR) {
            out_char(' ');
            get(S0, S1, 0);
            get(S1, S1, 1);
            set(STACK, 0, S1);
            return 1;
        }
        if (kind != EMPTY) {
            out(" . ");
            copy(S0, S1);
            set(STACK, 0, NIL);
            return 1;
        }
        out_char(')');
        drop();
        --*depth;
    }
    return 0;
}

void print(value v, int is_written) {
    uint32_t depth = 0;
    if (v.reg == NOWHERE) {
        print_leaf(v, is_written);
        return;
    }
    copy(S0, v.reg);
    do {
        uint32_t w = word(S0);
        while (KIND(w) == PAIR || (KIND(w) == VECTOR && DATA(w))) {
            if (KIND(w) == VECTOR) {
                out_char('#');
                vector_list(S0, S0);
            }
            out_char('(');
            get(S1, S0, 1);
            push(S1);
            depth++;
            get(S0, S0, 0);
            w = word(S0);
        }
        if (KIND(w) == VECTOR) out("#()");
        else print_leaf(here(S0), is_written);
    } while (next_datum(&depth));
}
