/* Reads data from a file or from a text. Lists are collected on the stack in the heap, the last datum first. */
#include "scheme.h"

#include <ctype.h>
#include <stdlib.h>
#include <string.h>

enum { TOKEN = 1024, DEEPEST = 2000 };

static int depth;

static int next(struct source *from) {
    int c = from->file ? getc(from->file) : *from->text ? (unsigned char)*from->text++ : EOF;
    if (c == '\n' && !from->is_ours) from->line++;
    return c;
}

static void back(struct source *from, int c) {
    if (c == EOF) return;
    if (c == '\n' && !from->is_ours) from->line--;
    if (from->file) ungetc(c, from->file);
    else from->text--;
}

/* The first character of what follows blanks and comments. */
static int skip(struct source *from) {
    int c;
    while ((c = next(from)) != EOF) {
        if (c == ';')
            while ((c = next(from)) != EOF && c != '\n') {}
        else if (!isspace(c)) break;
    }
    return c;
}

static int ends_token(int c) { return c == EOF || isspace(c) || strchr("()\";'", c) != 0; }

static uint32_t token(struct source *from, char *to, uint32_t length) {
    int c;
    while (!ends_token(c = next(from))) {
        if (length == TOKEN - 1) fail("a name has more than %d characters", TOKEN - 1);
        to[length++] = (char)c;
    }
    back(from, c);
    to[length] = 0;
    return length;
}

static void read_string(struct source *from) {
    static char text[1 << 16];
    uint32_t length = 0;
    int c;
    while ((c = next(from)) != '"') {
        if (c == '\\' && (c = next(from)) == 'n') c = '\n';
        if (c == EOF) fail("a string has no end");
        if (length == sizeof text) fail("a string in a program has more than %u characters", (unsigned)sizeof text);
        text[length++] = (char)c;
    }
    new_string(VAL, text, length);
}

static value character(const char *name, uint32_t length) {
    if (length == 1) return plain(WORD(CHARACTER, (unsigned char)name[0]));
    if (!strcmp(name, "space")) return plain(WORD(CHARACTER, ' '));
    if (!strcmp(name, "newline")) return plain(WORD(CHARACTER, '\n'));
    fail("no character has the name %s", name);
    return nothing_();
}

static int read_datum(struct source *from, int c);

/* The rest of a list, whose data so far are on top of the stack, and what follows its dot in VAL. */
static void read_list(struct source *from) {
    uint32_t line;
    int c;
    push(NIL);
    for (;;) {
        c = skip(from);
        line = from->line;
        if (c == EOF) fail("a list has no end");
        forget(VAL);
        if (c == ')') break;
        if (!read_datum(from, c)) {
            c = skip(from);
            if (c == EOF || c == ')' || !read_datum(from, c) || skip(from) != ')') fail("a dot stands where none may");
            break;
        }
        get(S0, STACK, 0);
        pair(S1, VAL, S0, line);
        set(STACK, 0, S1);
    }
    pop(S0);
    while (word(S0) != EMPTY) {
        get(S1, S0, 1);
        set(S0, 1, VAL);
        copy(VAL, S0);
        copy(S0, S1);
    }
}

static void read_abbreviated(struct source *from, const char *name) {
    uint32_t line = from->line;
    int c = skip(from);
    if (c == EOF || !read_datum(from, c)) fail("nothing follows a quote");
    pair(S0, VAL, NIL, line);
    make(S1, WORD(SYMBOL, symbol(name, (uint32_t)strlen(name))), 0);
    pair(VAL, S1, S0, line);
}

static void read_hash(struct source *from) {
    char text[TOKEN];
    int c = next(from);
    uint32_t length;
    value v;
    if (c == '(') {
        read_list(from);
        running = primitive_named("list->vector");
        v = here(VAL);
        copy(VAL, primitives[running].call(&v, 1, T0).reg);
        return;
    }
    text[0] = (char)c;
    if (c == '\\') {
        text[0] = (char)next(from);
        length = isalpha((unsigned char)text[0]) ? token(from, text, 1) : 1;
        v = character(text, length);
    } else {
        length = token(from, text, 1);
        if (length != 1 || (c != 't' && c != 'f')) fail("#%s is nothing", text);
        v = truth(c == 't');
    }
    copy(VAL, in_variable(v, VAL));
}

static void read_atom(const char *text, uint32_t length) {
    value v = number_read(text, VAL);
    if (v.reg == NOWHERE) v = plain(KIND(v.word) == CONSTANT ? WORD(SYMBOL, symbol(text, length)) : v.word);
    copy(VAL, in_variable(v, VAL));
}

/* VAL becomes the datum that begins with c; 0 if that is a dot alone. */
static int read_datum(struct source *from, int c) {
    char text[TOKEN];
    uint32_t length;
    if (++depth > DEEPEST) fail("data are nested deeper than %d", DEEPEST);
    if (c == '(') read_list(from);
    else if (c == ')') fail("a parenthesis closes nothing");
    else if (c == '\'') read_abbreviated(from, "quote");
    else if (c == '`') read_abbreviated(from, "quasiquote");
    else if (c == ',') {
        int d = next(from);
        if (d != '@') back(from, d);
        read_abbreviated(from, d == '@' ? "unquote-splicing" : "unquote");
    } else if (c == '"') read_string(from);
    else if (c == '#') read_hash(from);
    else {
        text[0] = (char)c;
        length = token(from, text, 1);
        if (length == 1 && c == '.') {
            depth--;
            return 0;
        }
        read_atom(text, length);
    }
    depth--;
    return 1;
}

int read_next(struct source *from) {
    int c;
    depth = 0;
    c = skip(from);
    if (c == EOF) return 0;
    line_now = from->line;
    if (!read_datum(from, c)) fail("a dot stands where none may");
    return 1;
}
