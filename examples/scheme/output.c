/* What a thread prints, and what it says of a failure, is gathered in a text of its own. */
#include "scheme.h"

#include <stdarg.h>
#include <stdlib.h>

static PER_THREAD char *text;
static PER_THREAD uint32_t used, room;

/* Room for so many characters more. */
static void grow(uint32_t more) {
    if (used + more <= room) return;
    room = 2 * (used + more);
    text = realloc(text, room);
    if (!text) exit(2);
}

void out_char(int c) {
    grow(1);
    text[used++] = (char)c;
}

void out(const char *format, ...) {
    va_list rest;
    va_start(rest, format);
    out_all(format, rest);
    va_end(rest);
}

void out_all(const char *format, va_list rest) {
    va_list again;
    int length;
    va_copy(again, rest);
    length = vsnprintf(0, 0, format, again);
    va_end(again);
    if (length < 0) return;
    grow((uint32_t)length + 1);
    vsnprintf(text + used, (size_t)length + 1, format, rest);
    used += (uint32_t)length;
}

/* Outside the world, as the output may have to wait. */
void out_write(void) {
    heap_leave();
    fwrite(text, 1, used, stdout);
    heap_enter();
    used = 0;
}

const char *out_text(uint32_t *length) {
    *length = used;
    return text;
}

void out_forget(void) { used = 0; }

void out_close(void) {
    free(text);
    text = 0;
    used = room = 0;
}
