/* Failures. What is said is gathered by the thread, and its handler does with it what is due: it is printed, or becomes what a future came to. */
#include "scheme.h"

#include <stdarg.h>

PER_THREAD uint32_t line_now;
PER_THREAD jmp_buf *handler;
const char *file_name = "prelude";

static void say_place(void) {
    out_forget();
    out("%s:%u: ", file_name, (unsigned)line_now);
}

void fail(const char *format, ...) {
    va_list rest;
    say_place();
    va_start(rest, format);
    out_all(format, rest);
    va_end(rest);
    longjmp(*handler, 1);
}

/* The list of a message and of what it is about. */
static void say_all(value list) {
    int is_first = 1;
    for (copy(T7, list.reg); KIND(word(T7)) == PAIR; get(T7, T7, 1), is_first = 0) {
        if (!is_first) out_char(' ');
        get(T6, T7, 0);
        print(here(T6), !is_first);
    }
}

void fail_at(value v, const char *wanted) {
    say_place();
    if (!wanted) say_all(v);
    else {
        if (running < primitive_count) out("%s: ", primitives[running].name);
        print(v, 1);
        out(" is not %s", wanted);
    }
    longjmp(*handler, 1);
}

void fail_again(uint32_t text) {
    uint32_t length = DATA(word(text)), i;
    out_forget();
    for (i = 0; i < length; i++) out_char(string_byte(text, i));
    longjmp(*handler, 1);
}

void heap_is_full(void) { fail("the heap is full"); }
