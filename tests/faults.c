/* Lets calls of a program fail: loaded before the C library (LD_PRELOAD), it stands in for the calls that a play makes.
 * The environment says what fails, in whole numbers; what isn't set never fails.
 *
 * ALLOC_FAILS   the number of the malloc or realloc that fails, counted from 1; ALLOC_ON: each later one fails, too
 * THREAD_FAILS  the same of pthread_create; THREAD_ON
 * READ_FAILS    the number of the read of standard input that fails; READ_BYTES: how many bytes a read gives at most
 * WRITE_FAILS   the number of the write to standard output that fails; WRITE_BYTES: how many bytes a write takes at most;
 *               WRITE_ROOM: how many bytes are taken in all; WRITE_ZERO: the write of WRITE_FAILS takes nothing and is no failure
 * INTERRUPTS    how often each read and write is interrupted before it is done
 * TOLD          a descriptor that gets a line for each of these:
 *               x PLACE  a call was made to fail; of a malloc or realloc with the place that called it
 *               a PLACE  what was refused there was asked for again at once, and given: the thread's next malloc or realloc is for the same block,
 *                        not larger, by the same call of the function that grows a list, and the frames of that function's callers are as they were
 *               t PLACE  a thread is started; with the place of the malloc that made the block which the thread is handed
 *               A place is the offset of a return address in its object, in hexadecimal digits, after one space.
 */
#define _GNU_SOURCE
#include <dlfcn.h>
#include <errno.h>
#include <pthread.h>
#include <stdatomic.h>
#include <stdio.h>
#include <stdlib.h>
#include <string.h>
#include <sys/syscall.h>
#include <unistd.h>

void *__libc_malloc(size_t bytes);
void *__libc_realloc(void *old, size_t bytes);

/* How many words of the stack are compared, from the place to which malloc or realloc returns. The kit's C (`rattle_alloc`, `rattle_realloc`) calls
 * these: word 1 is the base pointer that it saved, word 2 the place in the function that grows a list. From word 3 on lies the frame of that function,
 * which holds the sizes, and the place to which it returns, from word CALLERS at the latest those of its callers. */
enum { WORDS = 64, CALLERS = 12 };

static long alloc_fails, alloc_on, thread_fails, thread_on, read_fails, read_bytes, write_fails, write_bytes, write_zero, interrupts;
static long write_room = -1, told = -1;
static atomic_long allocs, threads, reads, writes, read_interrupts, write_interrupts;

static long number(const char *name, long otherwise) {
    const char *text = getenv(name);
    return text ? atol(text) : otherwise;
}

__attribute__((constructor)) static void begin(void) {
    alloc_fails = number("ALLOC_FAILS", 0);
    alloc_on = number("ALLOC_ON", 0);
    thread_fails = number("THREAD_FAILS", 0);
    thread_on = number("THREAD_ON", 0);
    read_fails = number("READ_FAILS", 0);
    read_bytes = number("READ_BYTES", 0);
    write_fails = number("WRITE_FAILS", 0);
    write_bytes = number("WRITE_BYTES", 0);
    write_room = number("WRITE_ROOM", -1);
    write_zero = number("WRITE_ZERO", 0);
    interrupts = number("INTERRUPTS", 0);
    told = number("TOLD", -1);
    atomic_store(&allocs, 0);
}

/* Tells a line: the letter, and a place if there is one. */
static void tell(char letter, void *place) {
    Dl_info object;
    char line[32];
    if (told < 0) return;
    int bytes = place && dladdr(place, &object) ? snprintf(line, sizeof line, "%c %lx\n", letter, (long)((char *)place - (char *)object.dli_fbase))
                                                : snprintf(line, sizeof line, "%c\n", letter);
    syscall(SYS_write, told, line, bytes);
}

/* Whether the call of this number, made at the place, fails, which is told. */
static int fails(long call, long first, long on, void *place) {
    if (first == 0 || call < first || (call > first && !on)) return 0;
    tell('x', place);
    return 1;
}

/* What is asked for (no old block: a new one), and the stack of who asks. */
struct request {
    void *old;
    size_t bytes;
    void **at;
    void *stack[WORDS];
};

/* What the thread was refused last, if it has asked for nothing since; and the last new block that it was given, with the place that asked. */
static _Thread_local struct request refused;
static _Thread_local int was_refused;
static _Thread_local void *block, *block_place;

static void note(struct request *request, void *old, size_t bytes, void **at) {
    request->old = old;
    request->bytes = bytes;
    request->at = at;
    memcpy(request->stack, at, sizeof request->stack);
}

/* Whether what was refused is asked for once more. */
static int is_again(const struct request *request) {
    if (request->old != refused.old || request->bytes > refused.bytes || request->at != refused.at) return 0;
    if (request->stack[0] != refused.stack[0] || request->stack[2] != refused.stack[2]) return 0;
    return memcmp(request->stack + CALLERS, refused.stack + CALLERS, (WORDS - CALLERS) * sizeof(void *)) == 0;
}

/* Whether the request is granted. Its stack begins with the place that asks. */
static int granted(void *old, size_t bytes, void **at) {
    struct request request;
    int again = 0;
    if (was_refused) {
        note(&request, old, bytes, at);
        again = is_again(&request);
    }
    was_refused = fails(atomic_fetch_add(&allocs, 1) + 1, alloc_fails, alloc_on, *at);
    if (was_refused) {
        note(&refused, old, bytes, at);
        errno = ENOMEM;
    } else if (again) {
        tell('a', *at);
    }
    return !was_refused;
}

void *malloc(size_t bytes) {
    void **at = (void **)__builtin_frame_address(0) + 1;
    if (!granted(0, bytes, at)) return 0;
    block_place = *at;
    return block = __libc_malloc(bytes);
}

void *realloc(void *old, size_t bytes) {
    return granted(old, bytes, (void **)__builtin_frame_address(0) + 1) ? __libc_realloc(old, bytes) : 0;
}

/* Whether this call is interrupted; each is so often, and then done. */
static int interrupted(atomic_long *count) {
    if (interrupts == 0) return 0;
    if (atomic_fetch_add(count, 1) < interrupts) {
        errno = EINTR;
        return 1;
    }
    atomic_store(count, 0);
    return 0;
}

ssize_t read(int file, void *bytes, size_t most) {
    if (file != 0) return syscall(SYS_read, file, bytes, most);
    if (interrupted(&read_interrupts)) return -1;
    if (fails(atomic_fetch_add(&reads, 1) + 1, read_fails, 0, 0)) {
        errno = EIO;
        return -1;
    }
    if (read_bytes > 0 && most > (size_t)read_bytes) most = read_bytes;
    return syscall(SYS_read, file, bytes, most);
}

ssize_t write(int file, const void *bytes, size_t most) {
    if (file != 1) return syscall(SYS_write, file, bytes, most);
    if (interrupted(&write_interrupts)) return -1;
    if (fails(atomic_fetch_add(&writes, 1) + 1, write_fails, 0, 0)) {
        errno = EIO;
        return write_zero ? 0 : -1;
    }
    if (write_bytes > 0 && most > (size_t)write_bytes) most = write_bytes;
    if (write_room == 0 && most > 0) {
        errno = ENOSPC;
        return -1;
    }
    if (write_room > 0 && most > (size_t)write_room) most = write_room;
    ssize_t taken = syscall(SYS_write, file, bytes, most);
    if (write_room > 0 && taken > 0) write_room -= taken;
    return taken;
}

ssize_t __write(int file, const void *bytes, size_t most) { return write(file, bytes, most); }


int pthread_create(pthread_t *thread, const pthread_attr_t *how, void *(*run)(void *), void *with) {
    static int (*next)(pthread_t *, const pthread_attr_t *, void *(*)(void *), void *);
    if (fails(atomic_fetch_add(&threads, 1) + 1, thread_fails, thread_on, 0)) return EAGAIN;
    if (!next) next = dlsym(RTLD_NEXT, "pthread_create");
    tell('t', with == block ? block_place : 0);
    return next(thread, how, run, with);
}
