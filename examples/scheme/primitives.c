/* The table of the primitives, and those that are neither of numbers, nor of lists, nor of vectors and strings. */
#include "primitives.h"

#include <stdlib.h>
#include <string.h>

#define PRIMITIVE_(name, least, most, mode, function) {name, least, most, mode, function},
const struct primitive primitives[] = {
#include "primitives.def"
};
const uint32_t primitive_count = sizeof primitives / sizeof *primitives;
PER_THREAD uint32_t running;

uint32_t primitive_named(const char *name) { return *symbol_primitive(symbol(name, (uint32_t)strlen(name))); }

#define IS(name, kind) value name(value *a, uint32_t n, uint32_t t) { UNUSED(n, t); return truth(KIND(word_of(a[0])) == kind); }
IS(p_is_symbol, SYMBOL)
IS(p_is_char, CHARACTER)

value p_not(value *a, uint32_t n, uint32_t t) { UNUSED(n, t); return truth(!is_true(a[0])); }
value p_is_boolean(value *a, uint32_t n, uint32_t t) { UNUSED(n, t); return truth((word_of(a[0]) | WORD(0, 1)) == WORD(CONSTANT, YES)); }
value p_is_procedure(value *a, uint32_t n, uint32_t t) {
    uint32_t kind = KIND(word_of(a[0]));
    UNUSED(n, t);
    return truth(kind == PRIMITIVE || kind == CLOSURE || kind == CONTINUATION);
}

/* The bytes of a string or a symbol, at most so many. */
static uint32_t text_of(value v, char *to, uint32_t room) {
    uint32_t w = word_of(v), i;
    if (KIND(w) == SYMBOL) {
        strncpy(to, symbol_name(DATA(w)), room - 1);
        to[room - 1] = 0;
        return (uint32_t)strlen(to);
    }
    if (KIND(w) != STRING) fail_at(v, "a string");
    if (DATA(w) >= room) fail_at(v, "a shorter string");
    for (i = 0; i < DATA(w); i++) to[i] = (char)string_byte(v.reg, i);
    to[i] = 0;
    return i;
}

enum { ROOM = 1024 };

value p_symbol_to_string(value *a, uint32_t n, uint32_t t) {
    char text[ROOM];
    (void)n;
    if (KIND(word_of(a[0])) != SYMBOL) fail_at(a[0], "a symbol");
    new_string(t, text, text_of(a[0], text, ROOM));
    return here(t);
}
value p_string_to_symbol(value *a, uint32_t n, uint32_t t) {
    char text[ROOM];
    uint32_t length = text_of(a[0], text, ROOM);
    UNUSED(n, t);
    return plain(WORD(SYMBOL, symbol(text, length)));
}
value p_number_to_string(value *a, uint32_t n, uint32_t t) {
    char text[ROOM];
    (void)n;
    number_text(a[0], text);
    new_string(t, text, (uint32_t)strlen(text));
    return here(t);
}
value p_string_to_number(value *a, uint32_t n, uint32_t t) {
    char text[ROOM];
    (void)n;
    text_of(a[0], text, ROOM);
    return number_read(text, t);
}

static uint32_t character(value v) {
    uint32_t w = word_of(v);
    if (KIND(w) != CHARACTER) fail_at(v, "a character");
    return DATA(w);
}
value p_char_equals(value *a, uint32_t n, uint32_t t) { UNUSED(n, t); return truth(character(a[0]) == character(a[1])); }
value p_char_less(value *a, uint32_t n, uint32_t t) { UNUSED(n, t); return truth(character(a[0]) < character(a[1])); }
value p_char_to_integer(value *a, uint32_t n, uint32_t t) { (void)n; return integer(character(a[0]), t); }
value p_integer_to_char(value *a, uint32_t n, uint32_t t) {
    uint32_t w = word_of(a[0]);
    UNUSED(n, t);
    if (KIND(w) != INTEGER || DATA(w) > 255) fail_at(a[0], "an integer below 256");
    return plain(WORD(CHARACTER, DATA(w)));
}

value p_display(value *a, uint32_t n, uint32_t t) { UNUSED(n, t); print(a[0], 0); out_write(); return nothing_(); }
value p_write(value *a, uint32_t n, uint32_t t) { UNUSED(n, t); print(a[0], 1); out_write(); return nothing_(); }
value p_newline(value *a, uint32_t n, uint32_t t) { (void)a; UNUSED(n, t); out_char('\n'); out_write(); return nothing_(); }

/* The operand is the list of a message and of what it is about. */
value p_error(value *a, uint32_t n, uint32_t t) {
    UNUSED(n, t);
    fail_at(a[0], 0);
    return nothing_();
}

value p_gc(value *a, uint32_t n, uint32_t t) {
    (void)a, (void)n;
    heap_collect();
    return integer((int64_t)heap_free(), t);
}
