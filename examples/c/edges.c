/*
 * Calls at the edge: the greatest and the least number that each refuses, stores into nothing, handles that are filled or lent, worlds without a name, and
 * what a thread takes of a processor while it waits for a collection. After each refusal the variables and the objects are as before. Calls for a shared world are
 * refused in the first world, and tried at their edges in another.
 */
#include "heap.h"
#include <string.h>
#include <unistd.h>

enum { FIELDS = 3 };

static mh_world world;
static mh_mutator m;

/* The numbers below the first that is refused are taken; it and those that a byte or a half would cut to a number in range are refused. */
static const uint32_t refused[] = {0, 1, 32, 224, 255 - 32, 256 - 32, 256, 65536 - 32, 65536, 0x1000000, 0x80000000, 0xffffffff - 32};

static uint32_t value_of(uint32_t v) {
    uint32_t value = 0;
    MUST(mh_value(&m, v, &value));
    return value;
}

/* Field i of the object of v refers to what variable w does, or to nothing if w is MH_NOTHING. Variable 31 is there for it. */
static void field_is(uint32_t v, uint32_t i, uint32_t w, const char *what) {
    uint32_t out = 7;
    MUST(mh_get(&m, 31, v, i));
    MUST(w == MH_NOTHING ? mh_is_nil(&m, 31, &out) : mh_same(&m, 31, w, &out));
    wrong(what, out, 1);
}

/* Variable 0 has value 10 and refers to itself in field 0 and to variable 1, of value 11, in field 2; variable 2 is nil. */
static void is_as_before(void) {
    uint32_t out = 7;
    wrong("the value of variable 0", value_of(0), 10);
    wrong("the value of variable 1", value_of(1), 11);
    MUST(mh_is_nil(&m, 2, &out));
    wrong("whether variable 2 is nil", out, 1);
    field_is(0, 0, 0, "whether field 0 is variable 0");
    field_is(0, 1, MH_NOTHING, "whether field 1 is nil");
    field_is(0, 2, 1, "whether field 2 is variable 1");
}

/* A new object's references, one of which is out of range, or one too many. */
static void makes_with(uint32_t v) {
    uint32_t fields[FIELDS + 1] = {0, MH_NOTHING, 1, 0}, k;
    MUST_BE(MH_OUT_OF_RANGE, mh_make_with(&m, v, 5, fields, FIELDS));
    MUST_BE(MH_OUT_OF_RANGE, mh_make_with(&m, 0, 5, fields, FIELDS + 1));
    MUST_BE(MH_OUT_OF_RANGE, mh_make_with(&m, v, 5, fields, 0));
    for (k = 0; k < FIELDS; k++) {
        uint32_t before = fields[k];
        fields[k] = v;
        MUST_BE(MH_OUT_OF_RANGE, mh_make_with(&m, 0, 5, fields, FIELDS));
        MUST_BE(MH_OUT_OF_RANGE, mh_make_with_step(&m, 1, 5, fields, k + 1));
        fields[k] = before;
    }
}

/* A number of a variable that is too great, in each place in which one stands. */
static void variable(uint32_t v) {
    uint32_t out = 77;
    mh_object what = {77, 77};
    MUST_BE(MH_OUT_OF_RANGE, mh_make_step(&m, v, 5));
    MUST_BE(MH_OUT_OF_RANGE, mh_make_cached(&m, v, 5));
    MUST_BE(MH_OUT_OF_RANGE, mh_make(&m, v, 5));
    if (v != MH_NOTHING) makes_with(v);
    MUST_BE(MH_OUT_OF_RANGE, mh_set(&m, v, 0, 1));
    MUST_BE(MH_OUT_OF_RANGE, mh_set(&m, 0, 0, v));
    MUST_BE(MH_OUT_OF_RANGE, mh_set(&m, 2, 0, v));
    MUST_BE(MH_OUT_OF_RANGE, mh_get(&m, v, 0, 0));
    MUST_BE(MH_OUT_OF_RANGE, mh_get(&m, 1, v, 0));
    MUST_BE(MH_OUT_OF_RANGE, mh_copy(&m, v, 0));
    MUST_BE(MH_OUT_OF_RANGE, mh_copy(&m, 1, v));
    MUST_BE(MH_OUT_OF_RANGE, mh_forget(&m, v));
    MUST_BE(MH_OUT_OF_RANGE, mh_put(&m, v, 5));
    MUST_BE(MH_OUT_OF_RANGE, mh_value(&m, v, &out));
    MUST_BE(MH_OUT_OF_RANGE, mh_is_nil(&m, v, &out));
    MUST_BE(MH_OUT_OF_RANGE, mh_same(&m, v, 0, &out));
    MUST_BE(MH_OUT_OF_RANGE, mh_same(&m, 0, v, &out));
    MUST_BE(MH_OUT_OF_RANGE, mh_look(&m, v, &what));
    MUST_BE(MH_OUT_OF_RANGE, mh_fields(&m, v, 3, 1));
    MUST_BE(MH_OUT_OF_RANGE, mh_fields(&m, 0, v, 1));
    MUST_BE(MH_OUT_OF_RANGE, mh_fields(&m, 0, 33 - 2, v));
    wrong("what was written", out, 77);
    wrong("what was written of an object", what.place == 77 && what.value == 77, 1);
    is_as_before();
}

/* The objects of variables 0 and 1 and nothing are looked at, and their fields taken: as many as there are, into the last variables that there are, by no call into
   the object's own variable. */
static void looks(void) {
    mh_object what = {77, 77};
    uint32_t place = 7, k, out = 7;
    MUST(mh_place(&m, 0, &place));
    MUST(mh_look(&m, 0, &what));
    wrong("the place of an object that is looked at", what.place, place);
    wrong("its value", what.value, 10);
    MUST_BE(MH_NIL, mh_look(&m, 2, &what));
    wrong("what was written of nothing", what.value, 10);
    for (k = 0; k < FIELDS; k++) MUST_BE(MH_OUT_OF_RANGE, mh_fields(&m, 10 + k, 10, k + 1));
    for (k = 0; k < FIELDS; k++) MUST_BE(MH_OUT_OF_RANGE, mh_fields(&m, 0, 32 - k, k + 1));
    MUST_BE(MH_OUT_OF_RANGE, mh_fields(&m, 0, 10, FIELDS + 1));
    MUST(mh_fields(&m, 0, 0, 0));
    MUST(mh_fields(&m, 0, 32, 0));
    is_as_before();
    MUST(mh_copy(&m, 28, 0));
    MUST(mh_fields(&m, 28, 29, FIELDS));
    MUST(mh_same(&m, 29, 0, &out));
    wrong("whether field 0 was taken", out, 1);
    MUST(mh_is_nil(&m, 30, &out));
    wrong("whether field 1 was taken", out, 1);
    MUST(mh_same(&m, 31, 1, &out));
    wrong("whether field 2 was taken", out, 1);
    MUST(mh_same(&m, 28, 0, &out));
    wrong("whether the object's variable is as before", out, 1);
    MUST(mh_fields(&m, 2, 28, 2));
    for (k = 28; k < 32; k++) MUST(mh_is_nil(&m, k, &out)), wrong("whether a field of nothing is nil", out, k < 31);
    MUST(mh_forget(&m, 31));
    is_as_before();
}

/* An object with references, of which variable 5 is one to itself: variable 0 is in its field 0, and its field 1 stays nil. */
static void references(void) {
    uint32_t fields[FIELDS] = {0, MH_NOTHING, 5};
    MUST(mh_make(&m, 5, 50));
    MUST(mh_make_with(&m, 5, 51, fields, FIELDS));
    wrong("the value of an object with references", value_of(5), 51);
    field_is(5, 0, 0, "whether its field 0 is variable 0");
    field_is(5, 1, MH_NOTHING, "whether its field 1 is nil");
    field_is(5, 2, 5, "whether its field 2 is itself");
    MUST(mh_make_with(&m, 5, 52, fields, 0));
    MUST(mh_make_with(&m, 5, 52, 0, 0));
    field_is(5, 0, MH_NOTHING, "whether a field without a reference is nil");
    MUST(mh_forget(&m, 5));
    is_as_before();
}

static void field(uint32_t i) {
    MUST_BE(MH_OUT_OF_RANGE, mh_set(&m, 0, i, 1));
    MUST_BE(MH_OUT_OF_RANGE, mh_set(&m, 2, i, 1));
    MUST_BE(MH_OUT_OF_RANGE, mh_get(&m, 1, 0, i));
    MUST_BE(MH_OUT_OF_RANGE, mh_fields(&m, 0, 10, i + 1));
    is_as_before();
}

/* What is for a shared world alone is refused by name, whatever its numbers are, and nothing changed. */
static void calls_for_shared_worlds(uint32_t k) {
    uint32_t out = 77, other = 77;
    mh_weak weak = {77, 77, 77, 77};
    MUST_BE(MH_NOT_SHARED, mh_root(&m, k));
    MUST_BE(MH_NOT_SHARED, mh_exchange(&m, k, k, k, k, &out));
    MUST_BE(MH_NOT_SHARED, mh_exchange(&m, 0, 0, 0, 1, &out));
    MUST_BE(MH_NOT_SHARED, mh_exchange_value(&m, k, 10, 11, &out));
    MUST_BE(MH_NOT_SHARED, mh_spill(&m, 0, k));
    MUST_BE(MH_NOT_SHARED, mh_fill(&m, 0, k));
    MUST_BE(MH_NOT_SHARED, mh_forget_slots(&m, 0, k));
    MUST_BE(MH_NOT_SHARED, mh_number(&m, k, &out, &other));
    MUST_BE(MH_NOT_SHARED, mh_weak_of(&m, k, &weak));
    wrong("what was written of a weak reference", weak.place, 77);
    MUST_BE(MH_REFUSED, mh_upgrade(&m, &weak, k));
    wrong("what was written", out, 77);
    wrong("what was written besides", other, 77);
    is_as_before();
}

static void sizes_of_worlds(void) {
    static const uint32_t odd[][2] = {{2, 0}, {256, 0}, {65536, 0}, {0x80000000, 0}, {0xffffffff, 0}, {0, 1}, {0, 65536}, {1, 65537}, {1, 0x80000000}, {1, 0xffffffff}, {2, 7}};
    uint32_t k;
    for (k = 0; k < sizeof odd / sizeof *odd; k++) {
        mh_sizes sizes = {.cells = 64, .fields = 1, .mutators = 1, .shared = odd[k][0], .slots = odd[k][1]};
        mh_world other = {0};
        MUST_BE(MH_OUT_OF_RANGE, mh_open(&sizes, &other));
        wrong("whether the handle is empty", other.at == 0, 1);
    }
}

/* Variable 3 lets go of the weak reference's object, which dies by the next collection; and calls about deaths that are refused. */
static void deaths(mh_mutator *n, mh_weak weak) {
    mh_weak all[4] = {weak, {0, 0, 0, 0}, weak, {1, 0, 0, 0}};
    uint32_t dead[4] = {77, 77, 77, 77}, many = 77, k;
    uint64_t before = 77, after = 77;
    MUST(mh_cycles(n, &before));
    MUST(mh_deaths(n, all, 3, 4, dead, &many));
    wrong("how many are dead", many, 0);
    MUST(mh_forget(n, 3));
    MUST(mh_collect(n));
    MUST(mh_cycles(n, &after));
    wrong("how many cycles have ended", after, before + 1);
    MUST(mh_deaths(n, all, 3, 4, dead, &many));
    wrong("how many are dead", many, 2);
    wrong("the first that is dead", dead[0], 0);
    wrong("the second", dead[1], 2);
    wrong("a third", dead[2], 77);
    MUST_BE(MH_REFUSED, mh_deaths(n, all + 1, 3, 4, dead, &many));
    wrong("how many are dead before one that is refused", many, 1);
    wrong("which one", dead[0], 1);
    many = 77;
    for (k = 0; k < sizeof refused / sizeof *refused; k++) MUST_BE(MH_OUT_OF_RANGE, mh_deaths(n, all, 3, 32 + refused[k], dead, &many));
    MUST(mh_leave(n));
    MUST_BE(MH_OUTSIDE, mh_deaths(n, all, 0, 4, dead, &many));
    MUST(mh_enter(n));
    wrong("what a call that is refused wrote", many, 77);
}

/* Weak references out of range, of another world, from outside, and of an object that is dead. */
static void weak_references(mh_mutator *n) {
    mh_weak weak = {77, 77, 77, 77}, odd;
    uint32_t k;
    MUST_BE(MH_NIL, mh_weak_of(n, 2, &weak));
    wrong("what was written of a weak reference", weak.number, 77);
    MUST(mh_make(n, 3, 33));
    MUST(mh_weak_of(n, 3, &weak));
    for (k = 0; k < sizeof refused / sizeof *refused; k++) {
        MUST_BE(MH_OUT_OF_RANGE, mh_weak_of(n, 32 + refused[k], &odd));
        MUST_BE(MH_OUT_OF_RANGE, mh_upgrade(n, &weak, 32 + refused[k]));
    }
    odd = weak;
    odd.world++;
    MUST_BE(MH_REFUSED, mh_upgrade(n, &odd, 3));
    odd = weak;
    odd.place = 64;
    MUST_BE(MH_OUT_OF_RANGE, mh_upgrade(n, &odd, 3));
    odd = weak;
    odd.section = 2;
    MUST_BE(MH_OUT_OF_RANGE, mh_upgrade(n, &odd, 3));
    odd = weak;
    odd.number = 0xffffffff;
    MUST_BE(MH_OUT_OF_RANGE, mh_upgrade(n, &odd, 3));
    MUST(mh_leave(n));
    MUST_BE(MH_OUTSIDE, mh_weak_of(n, 3, &odd));
    MUST_BE(MH_OUTSIDE, mh_upgrade(n, &weak, 3));
    MUST(mh_enter(n));
    MUST(mh_collect(n));
    MUST(mh_upgrade(n, &weak, 3));
    deaths(n, weak);
    MUST_BE(MH_DEAD, mh_upgrade(n, &weak, 3));
    MUST_BE(MH_NIL, mh_weak_of(n, 3, &weak));
    MUST_BE(MH_DEAD, mh_upgrade(n, &weak, 3));
}

/* Stamps: those of another world are refused wherever the mutator stands, and its own while it collects. */
static void stamps(mh_mutator *n) {
    mh_stamp own = {77}, others = {77};
    uint32_t k;
    MUST(mh_stamp_of(n, &own));
    MUST(mh_stamp_of(&m, &others));
    for (k = 0; k < 2; k++) {
        MUST_BE(MH_REFUSED, mh_after(n, &others));
        MUST_BE(MH_REFUSED, mh_after(&m, &own));
        MUST(mh_after(n, &own));
        MUST(mh_after(&m, &others));
        MUST(mh_leave(n));
    }
    MUST(mh_enter(n));
    MUST_BE(MH_NOT_YET, mh_collect_step(n, 1));
    MUST(mh_stamp_of(n, &own));
    MUST_BE(MH_COLLECTING, mh_after(n, &own));
    MUST_BE(MH_REFUSED, mh_after(n, &others));
    MUST(mh_collect(n));
    MUST(mh_after(n, &own));
    is_as_before();
}

/* A shared world whose mutators have all slots that there are. */
static void shared_world(void) {
    mh_sizes sizes = {.cells = 64, .fields = FIELDS, .mutators = 1, .shared = 1, .slots = 65536};
    mh_world shared = {0};
    mh_mutator n = {0};
    uint32_t k, out = 77, other = 77, value = 0;
    MUST(mh_open(&sizes, &shared));
    MUST(mh_take_mutator(&shared, &n));
    MUST_BE(MH_OUTSIDE, mh_root(&n, 0));
    MUST(mh_enter(&n));
    MUST(mh_root(&n, 0));
    MUST(mh_make(&n, 1, 11));
    for (k = 0; k < sizeof refused / sizeof *refused; k++) {
        uint32_t v = 32 + refused[k], i = FIELDS + refused[k];
        MUST_BE(MH_OUT_OF_RANGE, mh_root(&n, v));
        MUST_BE(MH_OUT_OF_RANGE, mh_exchange(&n, v, 0, 2, 1, &out));
        MUST_BE(MH_OUT_OF_RANGE, mh_exchange(&n, 0, i, 2, 1, &out));
        MUST_BE(MH_OUT_OF_RANGE, mh_exchange(&n, 0, 0, v, 1, &out));
        MUST_BE(MH_OUT_OF_RANGE, mh_exchange(&n, 0, 0, 2, v, &out));
        MUST_BE(MH_OUT_OF_RANGE, mh_exchange_value(&n, v, 0, 1, &out));
        MUST_BE(MH_OUT_OF_RANGE, mh_spill(&n, v, 0));
        MUST_BE(MH_OUT_OF_RANGE, mh_fill(&n, v, 0));
        MUST_BE(MH_OUT_OF_RANGE, mh_place(&n, v, &out));
        MUST_BE(MH_OUT_OF_RANGE, mh_number(&n, v, &out, &other));
        if (refused[k] < 0xffff0000) {
            MUST_BE(MH_OUT_OF_RANGE, mh_spill(&n, 1, 65536 + refused[k]));
            MUST_BE(MH_OUT_OF_RANGE, mh_fill(&n, 1, 65536 + refused[k]));
            MUST_BE(MH_OUT_OF_RANGE, mh_forget_slots(&n, 0, 65537 + refused[k]));
        }
    }
    MUST_BE(MH_OUT_OF_RANGE, mh_forget_slots(&n, 1, 0));
    MUST_BE(MH_NIL, mh_exchange(&n, 2, 0, 2, 1, &out));
    MUST_BE(MH_NIL, mh_exchange_value(&n, 2, 0, 1, &out));
    MUST_BE(MH_NIL, mh_place(&n, 2, &out));
    MUST_BE(MH_NIL, mh_number(&n, 2, &out, &other));
    wrong("what was written", out, 77);
    wrong("what was written besides", other, 77);
    MUST(mh_value(&n, 1, &value));
    wrong("the value of variable 1", value, 11);
    MUST(mh_spill(&n, 1, 65535));
    MUST(mh_forget(&n, 1));
    MUST(mh_forget_slots(&n, 0, 65535));
    MUST(mh_collect(&n));
    MUST(mh_fill(&n, 1, 65535));
    MUST(mh_value(&n, 1, &value));
    wrong("what the last slot kept", value, 11);
    MUST(mh_exchange(&n, 0, 2, 2, 1, &out));
    wrong("whether an exchange of nothing was won", out, 1);
    MUST(mh_exchange(&n, 0, 2, 2, 0, &out));
    wrong("whether the same was won again", out, 0);
    MUST(mh_exchange_value(&n, 1, 11, 0xffffffff, &out));
    wrong("whether an exchange of a value was won", out, 1);
    MUST(mh_exchange_value(&n, 1, 11, 5, &out));
    wrong("whether the same was won again", out, 0);
    MUST(mh_value(&n, 1, &value));
    wrong("the value that was exchanged", value, 0xffffffff);
    MUST(mh_number(&n, 1, &out, &other));
    wrong("the maker of the first object", out, 1);
    wrong("which of its maker's it is", other, 0);
    MUST(mh_number(&n, 0, &out, &other));
    wrong("the maker of the root", out, 0);
    wrong("which of its maker's it is", other, 0);
    weak_references(&n);
    stamps(&n);
    MUST(mh_give_back(&shared, &n));
    MUST(mh_close(&shared));
}

/* Neither kind of world takes a mutator of the other kind, also if both have one name. */
static void kinds(void) {
    mh_sizes sizes = {.cells = 64, .fields = 1, .mutators = 1, .name = 7};
    mh_world own = {0}, shared = {0};
    mh_mutator o = {0}, s = {0};
    MUST(mh_open(&sizes, &own));
    sizes.shared = 1;
    MUST(mh_open(&sizes, &shared));
    MUST(mh_take_mutator(&own, &o));
    MUST(mh_take_mutator(&shared, &s));
    MUST_BE(MH_REFUSED, mh_give_back(&own, &s));
    MUST_BE(MH_REFUSED, mh_give_back(&shared, &o));
    MUST(mh_give_back(&shared, &s));
    MUST(mh_give_back(&own, &o));
    MUST(mh_close(&own));
    MUST(mh_close(&shared));
}

static void stores_into_nothing(void) {
    uint32_t out = 77;
    MUST_BE(MH_NIL, mh_set(&m, 2, 0, 1));
    MUST_BE(MH_NIL, mh_set(&m, 2, 2, 2));
    MUST_BE(MH_NIL, mh_put(&m, 2, 5));
    MUST_BE(MH_NIL, mh_value(&m, 2, &out));
    wrong("what was written", out, 77);
    is_as_before();
    MUST(mh_set(&m, 0, 1, 2));
    is_as_before();
}

static void handles(void) {
    mh_sizes sizes = {.cells = 64, .fields = 1, .mutators = 1};
    mh_world other = {0};
    mh_mutator n = {0};
    MUST_BE(MH_TAKEN, mh_open(&sizes, &world));
    MUST_BE(MH_TAKEN, mh_take_mutator(&world, &m));
    MUST_BE(MH_STILL_LENT, mh_close(&world));
    sizes.name = MH_NAMES;
    MUST_BE(MH_OUT_OF_RANGE, mh_open(&sizes, &other));
    sizes.name = 0xffffffff;
    MUST_BE(MH_OUT_OF_RANGE, mh_open(&sizes, &other));
    wrong("whether the handle is empty", other.at == 0, 1);
    sizes.name = 0;
    MUST(mh_open(&sizes, &other));
    MUST(mh_take_mutator(&other, &n));
    MUST_BE(MH_REFUSED, mh_give_back(&world, &n));
    MUST(mh_give_back(&other, &n));
    MUST(mh_close(&other));
    wrong("the text of a status", (uint64_t)strcmp(mh_status_text(MH_NIL), "the variable refers to no object"), 0);
    is_as_before();
}

static double waited;

/* Another mutator collects, for which it waits until the first has left. */
static void *collect(void *p) {
    struct timespec t;
    MUST(mh_enter((mh_mutator *)p));
    MUST(mh_collect((mh_mutator *)p));
    MUST(mh_leave((mh_mutator *)p));
    clock_gettime(CLOCK_THREAD_CPUTIME_ID, &t);
    waited = (double)t.tv_sec + (double)t.tv_nsec * 1e-9;
    return 0;
}

/* The other thread waits for this one to leave, which happens after so many seconds. */
static void wait_for(mh_mutator *other, unsigned seconds) {
    pthread_t thread;
    if (pthread_create(&thread, 0, collect, other)) exit(2);
    sleep(seconds);
    MUST(mh_leave(&m));
    pthread_join(thread, 0);
}

static void waiting(void) {
    static mh_mutator other;
    MUST(mh_take_mutator(&world, &other));
    wait_for(&other, 2);
    wrong("whether a thread that waited for 2 s took a fifth of a second", waited > 0.2, 0);
    MUST(mh_enter(&m));
#ifdef MH_FUTEX
    /* A thread that is awake just as the other leaves isn't told; some time it sleeps. */
    for (uint32_t k = 0; k < 30 && !world.book->bells[MH_LEAVING].rung; k++) {
        wait_for(&other, 1);
        MUST(mh_enter(&m));
    }
    wrong("whether it was told that the other had left", world.book->bells[MH_LEAVING].rung > 0, 1);
    wrong("how many wait for that still", world.book->bells[MH_LEAVING].sleepers, 0);
#endif
    MUST(mh_give_back(&world, &other));
    is_as_before();
}

int main(void) {
    uint32_t k;
    open_world(&world, 256, FIELDS, 2);
    MUST(mh_take_mutator(&world, &m));
    MUST(mh_enter(&m));
    MUST(mh_make(&m, 0, 10));
    MUST(mh_make(&m, 1, 11));
    MUST(mh_set(&m, 0, 0, 0));
    MUST(mh_set(&m, 0, 2, 1));
    for (k = 0; k < sizeof refused / sizeof *refused; k++) variable(32 + refused[k]);
    for (k = 0; k < sizeof refused / sizeof *refused; k++) field(FIELDS + refused[k]);
    for (k = 0; k < sizeof refused / sizeof *refused; k++) calls_for_shared_worlds(refused[k]);
    stores_into_nothing();
    looks();
    references();
    handles();
    sizes_of_worlds();
    shared_world();
    kinds();
    waiting();
    MUST(mh_give_back(&world, &m));
    MUST(mh_close(&world));
    printf("%-13s %-12s numbers out of range, stores into nothing, handles and names: refused, and nothing changed; a wait of 2 s took no processor\n", "edges", COLLECTOR);
    return 0;
}
