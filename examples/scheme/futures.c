/*
 * Futures. A future is an object. Its word has its number and its state; field 0 is the procedure that computes its value, and then the value, or the text of
 * a failure; field 1 has those who wait for it. A thread that touches one which isn't done doesn't wait: what is left to do becomes an object too, whose field
 * 0 is the continuation and field 1 the future, and the thread begins another task. So few threads compute many futures, and none is held up by another.
 *
 * Tasks are the futures that nobody has begun and those who wait no longer, linked by field 2, the last one first. They are put and taken under a lock. Whoever
 * has it makes no object and doesn't enter, so that others wait for it inside the world. The expression at the top is a future that is always there. It is over
 * when no thread has a task, so that the compiler works alone.
 */
#include "machine.h"
#include "primitives.h"

#include <stdlib.h>

/* Of a future that is FULL, the heap had no room even for the text of its failure: its number is the line then. */
enum state { OPEN, DONE, FAILED, FULL };
enum { VALUE, WAITING, NEXT, USED };
enum { NUMBERS = 1 << 26 };

#define STATE(word) (DATA(word) & 3u)
#define OF_NUMBER(number, state) WORD(FUTURE, (number) << 2 | (uint32_t)(state))

PER_THREAD uint32_t future_now;

/* Under the lock: how many tasks there are, how many threads wait for one, and whether they are to end. */
static pthread_mutex_t lock = PTHREAD_MUTEX_INITIALIZER;
static pthread_cond_t change = PTHREAD_COND_INITIALIZER;
static uint32_t tasks, waiting;
static int is_closing;

/* Set while the first thread alone is at work. */
static uint32_t threads, top_line;
static uint32_t numbers;
static pthread_t others[THREADS];
/* Where the machine of this thread goes on; HALT where it has no task. */
static PER_THREAD uint32_t next_pc = HALT;

/* Under the lock. The task in v is the first one. Uses S3 and S4, as does what takes it. */
static void put_task(uint32_t v) {
    root(S3);
    get(S4, S3, ROOT_TASKS);
    set(v, NEXT, S4);
    set(S3, ROOT_TASKS, v);
    tasks++;
    pthread_cond_signal(&change);
}

static void take_task(uint32_t v) {
    root(S3);
    get(v, S3, ROOT_TASKS);
    get(S4, v, NEXT);
    set(S3, ROOT_TASKS, S4);
    set(v, NEXT, NIL);
    tasks--;
}

/* The primitive behind (future e), whose operand is a procedure that computes e. */
value p_future(value *a, uint32_t n, uint32_t t) {
    uint32_t number = __atomic_add_fetch(&numbers, 1, __ATOMIC_RELAXED);
    (void)n;
    if (number >= NUMBERS) fail("more than %d futures", NUMBERS - 1);
    make(S0, OF_NUMBER(number, OPEN), USED);
    set(S0, VALUE, a[0].reg);
    copy(t, S0);
    pthread_mutex_lock(&lock);
    put_task(t);
    pthread_mutex_unlock(&lock);
    return here(t);
}

value p_is_future(value *a, uint32_t n, uint32_t t) { UNUSED(n, t); return truth(KIND(word_of(a[0])) == FUTURE); }

/* What is left to do waits for the future in T0, unless that was done meanwhile. */
static int waits(void) {
    int is_open;
    frames_to_heap();
    forget_frames();
    make(S0, WORD(RIB, future_now), USED);
    set(S0, 0, k);
    set(S0, 1, T0);
    pthread_mutex_lock(&lock);
    is_open = STATE(word(T0)) == OPEN;
    if (is_open) {
        get(S1, T0, WAITING);
        set(S0, NEXT, S1);
        set(T0, WAITING, S0);
    }
    pthread_mutex_unlock(&lock);
    return is_open;
}

/* VAL becomes what the future in T0 came to, which isn't OPEN; or what it says fails once more. */
static value outcome(void) {
    uint32_t w = word(T0);
    get(VAL, T0, VALUE);
    if (STATE(w) == FAILED) fail_again(VAL);
    if (STATE(w) != FULL) return here(VAL);
    line_now = DATA(w) >> 2;
    heap_is_full();
    return nothing_();
}

uint32_t touch(void) {
    uint32_t w = word(T0);
    if (KIND(w) != FUTURE) return give(here(T0));
    if (STATE(w) == OPEN && waits()) return SWITCH;
    return give(outcome());
}

/* The future at the end of the continuation, which is in k, is done: it came to what is in VAL. Who waits for it is a task again. */
static void finish(enum state state) {
    set(k, VALUE, VAL);
    pthread_mutex_lock(&lock);
    put(k, OF_NUMBER(state == FULL ? line_now : future_now, state));
    for (get(S0, k, WAITING); word(S0) != EMPTY; copy(S0, S1)) {
        get(S1, S0, NEXT);
        put_task(S0);
    }
    set(k, WAITING, NIL);
    pthread_mutex_unlock(&lock);
    forget_frames();
}

/* VAL becomes the text that the thread gathered of a failure; 0 if the heap has no room for it. */
static int keeps_text(void) {
    jmp_buf full, *outer = handler;
    const char *text;
    uint32_t length;
    handler = &full;
    if (!setjmp(full)) {
        text = out_text(&length);
        new_string(VAL, text, length);
    } else forget(VAL);
    handler = outer;
    out_forget();
    return KIND(word(VAL)) == STRING;
}

/* The future that is computed has failed. What was left to do is dropped. */
static __attribute__((noinline)) void finish_failed(void) {
    next_pc = HALT;
    for (; KIND(word(k)) != FUTURE; pass()) get(k, k, 0);
    machine_reset();
    finish(keeps_text() ? FAILED : FULL);
}

/* The line is that of the node in a word of this kind; that of the expression at the top, if it is another kind or the node has none. */
static void at_line_of(uint32_t w, enum kind kind) {
    uint32_t line = KIND(w) == kind ? code[DATA(w)].line : 0;
    line_now = line ? line : top_line;
}

/* The task in T0: one that goes on, or a future that begins. */
static uint32_t begin(void) {
    uint32_t w = word(T0);
    if (KIND(w) != FUTURE) {
        future_now = DATA(w);
        get(k, T0, 0);
        get(T0, T0, 1);
        at_line_of(word(k), RIB);
        return touch();
    }
    future_now = DATA(w) >> 2;
    copy(k, T0);
    get(T0, k, VALUE);
    set(k, VALUE, NIL);
    at_line_of(word(T0), CLOSURE);
    forget(OPERANDS);
    return apply();
}

/* Under the lock. Whether there is nothing more to do: for the first thread if no other has a task. */
static int is_over(int is_first) { return is_first ? waiting == threads - 1 : is_closing; }

/* Under the lock, which is given up meanwhile: waits outside the world until there is a task, or all is over. What the thread had is no root meanwhile. */
static void rest(int is_first) {
    machine_reset();
    forget(k);
    heap_leave();
    if (!is_first && ++waiting == threads - 1) pthread_cond_broadcast(&change);
    while (!tasks && !is_over(is_first)) pthread_cond_wait(&change, &lock);
    if (!is_first) waiting--;
    pthread_mutex_unlock(&lock);
    heap_enter();
    names_join();
    pthread_mutex_lock(&lock);
}

/* T0 becomes the next task; 0 if all is over. */
static int next_task(int is_first) {
    int is_there;
    pthread_mutex_lock(&lock);
    while (!tasks && !is_over(is_first)) rest(is_first);
    is_there = tasks > 0;
    if (is_there) take_task(T0);
    pthread_mutex_unlock(&lock);
    return is_there;
}

static void go_on(void) {
    uint32_t pc = next_pc;
    next_pc = HALT;
    if (evaluate(pc) != HALT) return;
    copy(VAL, in_variable(val, VAL));
    finish(DONE);
}

/* Task after task. Out of line, as finish_failed is: a compiler may keep the address of a thread's variable in a register, which doesn't hold it any more after a longjmp. */
static __attribute__((noinline)) void go_through(int is_first) {
    for (;;) {
        if (next_pc != HALT) go_on();
        if (!next_task(is_first)) return;
        next_pc = begin();
    }
}

static void work(int is_first) {
    jmp_buf failed;
    handler = &failed;
    while (setjmp(failed)) finish_failed();
    go_through(is_first);
}

/* The expression at the top is computed, by whichever thread. T0 becomes its future. */
static void run_top(uint32_t pc) {
    jmp_buf *outer = handler;
    root(S0);
    get(k, S0, ROOT_TOP);
    put(k, OF_NUMBER(0, OPEN));
    set(k, VALUE, NIL);
    machine_reset();
    future_now = 0;
    next_pc = pc;
    work(1);
    handler = outer;
    root(S0);
    get(T0, S0, ROOT_TOP);
}

value run(uint32_t pc) {
    top_line = line_now;
    run_top(pc);
    line_now = top_line;
    if (STATE(word(T0)) == OPEN) fail("futures wait for each other");
    return outcome();
}

static void *other(void *unused) {
    heap_join();
    names_join();
    work(0);
    heap_part();
    out_close();
    return unused;
}

/* The first thread's. It waits until the others wait for tasks. */
void futures_open(uint32_t count) {
    uint32_t i;
    root(S0);
    make(S1, OF_NUMBER(0, DONE), USED);
    set(S0, ROOT_TOP, S1);
    threads = count;
    for (i = 1; i < threads; i++)
        if (pthread_create(&others[i], 0, other, 0)) exit(2);
    next_task(1);
}

void futures_close(void) {
    uint32_t i;
    pthread_mutex_lock(&lock);
    is_closing = 1;
    pthread_cond_broadcast(&change);
    pthread_mutex_unlock(&lock);
    heap_leave();
    for (i = 1; i < threads; i++) pthread_join(others[i], 0);
}
