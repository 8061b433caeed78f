/* Reads expressions from a file, or from the standard input, and evaluates them one after the other. One that fails says where and why, and the next goes on.

       scheme [--cells N] [--threads N] [FILE] */
#include "prelude.h"
#include "scheme.h"

#include <stdlib.h>
#include <string.h>

static int failures;

/* Says what the thread has gathered of a failure. */
static void tell_failure(void) {
    out_char('\n');
    out_write();
    fflush(stdout);
    failures++;
    machine_reset();
}

static void evaluate_all(struct source *from, int shows) {
    jmp_buf top;
    value v;
    handler = &top;
    while (setjmp(top)) tell_failure();
    for (;;) {
        if (shows) fflush(stdout);
        running = primitive_count;
        if (!read_next(from)) return;
        v = run(compile_top());
        if (shows && word_of(v) != WORD(CONSTANT, NOTHING)) {
            print(v, 1);
            out_char('\n');
            out_write();
        }
    }
}

static int usage(void) {
    fputs("usage: scheme [--cells N] [--threads N] [FILE]\n", stderr);
    return 2;
}

/* The number that follows this word, if that is the next one. */
static uint32_t option(int count, char **words, int *at, const char *name, uint32_t otherwise) {
    if (*at + 1 >= count || strcmp(words[*at], name)) return otherwise;
    *at += 2;
    return (uint32_t)strtoul(words[*at - 1], 0, 10);
}

static void open_all(uint32_t cells, uint32_t threads) {
    struct source from = {0, prelude, 0, 1};
    heap_open(cells, threads);
    heap_join();
    names_open();
    names_join();
    futures_open(threads);
    evaluate_all(&from, 0);
}

static void close_all(void) {
    futures_close();
    heap_part();
    heap_close();
    out_close();
}

int main(int count, char **words) {
    struct source from = {0, 0, 1, 0};
    int at = 1;
    uint32_t cells = option(count, words, &at, "--cells", 1u << 20), threads = option(count, words, &at, "--threads", 1);
    if (count > at + 1 || threads < 1 || threads > THREADS) return usage();
    from.file = count > at ? fopen(words[at], "r") : stdin;
    if (!from.file) {
        perror(words[at]);
        return 2;
    }
    open_all(cells, threads);
    file_name = count > at ? words[at] : "input";
    evaluate_all(&from, count == at);
    close_all();
    return failures != 0;
}
