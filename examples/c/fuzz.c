/*
 * Calls at random, right and wrong: numbers out of range, calls in the wrong place or in the wrong kind of world, handles that were given back. Between them each
 * thread takes turns of a tracer of its own. A shadow of each mutator's objects in plain C says what each call is to answer, and from time to time every object
 * that can be reached is compared with its shadow, so that none is lost or changed. In a shared world all threads have the root, which they look at; one thread
 * alone changes it too. Arguments: calls in all, threads, seed, 1 for a shared world, how many cycles have to mark
 * beside the mutators.
 */
#include "giving_up.h"
#include "hiding.h"
#include "looking_calls.h"
#include "shared_calls.h"

static void operate(struct job *j, uint32_t which) {
    uint32_t v = some_variable(j), w = some_variable(j), i = some_field(j);
    uint32_t out = 77, value = random_below(j, 1u << 30);
    int one = v < VARIABLES, two = one && w < VARIABLES, three = two && i < FIELDS;
    int32_t o = one ? j->variable[v] : -1;
    mh_status wanted;
    if (o == ROOT && root_is_others && (which == 0 || which == 4)) return;
    switch (which) {
    case 0:
        wanted = unless_nil(expected(j, three), o);
        SAYS(wanted, mh_set(&j->m, v, i, w));
        if (wanted == MH_OK) j->of[o].field[i] = j->variable[w];
        return;
    case 1:
        wanted = expected(j, three);
        SAYS(wanted, mh_get(&j->m, w, v, i));
        if (wanted == MH_OK) j->variable[w] = o < 0 ? -1 : j->of[o].field[i];
        return;
    case 2:
        wanted = expected(j, two);
        SAYS(wanted, mh_copy(&j->m, w, v));
        if (wanted == MH_OK) j->variable[w] = o;
        return;
    case 3:
        wanted = expected(j, one);
        SAYS(wanted, mh_forget(&j->m, v));
        if (wanted == MH_OK) j->variable[v] = -1;
        return;
    case 4:
        wanted = unless_nil(expected(j, one), o);
        SAYS(wanted, mh_put(&j->m, v, value));
        if (wanted == MH_OK) j->of[o].value = value;
        return;
    case 5:
        wanted = unless_nil(expected(j, one), o);
        SAYS(wanted, mh_value(&j->m, v, &out));
        wrong("what mh_value wrote", out, wanted == MH_OK ? j->of[o].value : 77);
        return;
    case 6:
        wanted = expected(j, two);
        SAYS(wanted, mh_same(&j->m, v, w, &out));
        wrong("what mh_same wrote", out, wanted == MH_OK ? o == j->variable[w] : 77);
        return;
    default:
        wanted = expected(j, one);
        SAYS(wanted, mh_is_nil(&j->m, v, &out));
        wrong("what mh_is_nil wrote", out, wanted == MH_OK ? o < 0 : 77);
    }
}

static void move(struct job *j, uint32_t which) {
    uint32_t stopping = 77;
    mh_status s;
    SAYS(MH_OK, mh_is_stopping(&j->m, &stopping));
    if (j->place != COLLECTING || stopping > 1) wrong("whether it waits for a stop", stopping, 0);
    switch (which) {
    case 0:
        s = told(j, mh_enter_step(&j->m));
        if (j->place == COLLECTING) must(s, MH_COLLECTING, "mh_enter_step", __FILE__, __LINE__);
        else if (j->place == INSIDE) must(s, MH_OK, "mh_enter_step", __FILE__, __LINE__);
        else if (s == MH_OK) j->place = INSIDE;
        else if (s != MH_NOT_YET) must(s, MH_STOPPED, "mh_enter_step", __FILE__, __LINE__);
        return;
    case 1:
        SAYS(j->place == COLLECTING ? MH_COLLECTING : MH_OK, mh_leave(&j->m));
        if (j->place == INSIDE) j->place = OUTSIDE;
        return;
    case 2:
        s = told(j, mh_safe_point_step(&j->m));
        if (j->place != INSIDE) must(s, expected(j, 1), "mh_safe_point_step", __FILE__, __LINE__);
        else if (s == MH_STOPPED) j->place = OUTSIDE;
        else must(s, MH_OK, "mh_safe_point_step", __FILE__, __LINE__);
        return;
    case 3:
        SAYS(MH_OUT_OF_RANGE, mh_collect_step(&j->m, 0));
        SAYS(MH_OUT_OF_RANGE, mh_refill_step(&j->m, 0));
        refill(j);
        return;
    default: collect(j);
    }
}

/* A handle that was given back, or was never taken. */
static void use_gone(struct job *j, uint32_t which) {
    uint32_t out = 77;
    uint32_t v = some_variable(j), w = some_variable(j), i = some_field(j);
    uint64_t cycles = 77;
    mh_weak weak = {0, 0, 0, 0};
    mh_object what = {77, 77};
    mh_stamp stamp = {77};
    mh_mutator *g = &j->gone;
    switch (which) {
    case 0: SAYS(MH_GIVEN_BACK, mh_set(g, v, i, w)); break;
    case 1: SAYS(MH_GIVEN_BACK, mh_get(g, w, v, i)); break;
    case 2: SAYS(MH_GIVEN_BACK, mh_make_step(g, v, 1)); break;
    case 3: SAYS(MH_GIVEN_BACK, mh_enter_step(g)); break;
    case 4: SAYS(MH_GIVEN_BACK, mh_leave(g)); break;
    case 5: SAYS(MH_GIVEN_BACK, mh_safe_point_step(g)); break;
    case 6: SAYS(MH_GIVEN_BACK, mh_collect_step(g, 1)); break;
    case 7: SAYS(MH_GIVEN_BACK, mh_value(g, v, &out)); break;
    case 8: SAYS(MH_GIVEN_BACK, mh_copy(g, v, w)); break;
    case 9: SAYS(MH_GIVEN_BACK, mh_put(g, v, 1)); break;
    case 10: SAYS(MH_GIVEN_BACK, mh_is_nil(g, v, &out)); break;
    case 11: SAYS(MH_GIVEN_BACK, mh_same(g, v, w, &out)); break;
    case 12: SAYS(MH_GIVEN_BACK, mh_trace_turn(&j->none)); SAYS(MH_GIVEN_BACK, mh_help_turn(&j->none, 1)); break;
    case 13: SAYS(MH_GIVEN_BACK, mh_give_back_tracer(&world, &j->none)); break;
    case 14: SAYS(MH_GIVEN_BACK, mh_is_stopping(g, &out)); break;
    case 15: SAYS(MH_GIVEN_BACK, mh_root(g, v)); break;
    case 16: SAYS(MH_GIVEN_BACK, mh_exchange(g, v, i, w, v, &out)); break;
    case 17: SAYS(MH_GIVEN_BACK, mh_exchange_value(g, v, 1, 2, &out)); break;
    case 18: SAYS(MH_GIVEN_BACK, mh_spill(g, v, w)); break;
    case 19: SAYS(MH_GIVEN_BACK, mh_fill(g, v, w)); break;
    case 20: SAYS(MH_GIVEN_BACK, mh_forget_slots(g, v, w)); break;
    case 21: SAYS(MH_GIVEN_BACK, mh_place(g, v, &out)); break;
    case 22: SAYS(MH_GIVEN_BACK, mh_number(g, v, &out, &out)); break;
    case 23: SAYS(MH_GIVEN_BACK, mh_make_with_step(g, v, 1, &w, 1)); break;
    case 24: SAYS(MH_GIVEN_BACK, mh_forget_all(g)); break;
    case 25: SAYS(MH_GIVEN_BACK, mh_abandon_step(&world, g, 0, 1)); break;
    case 26: SAYS(MH_GIVEN_BACK, mh_make_cached(g, v, 1)); break;
    case 27: SAYS(MH_GIVEN_BACK, mh_refill_step(g, 1)); break;
    case 28: SAYS(MH_GIVEN_BACK, mh_weak_of(g, v, &weak)); break;
    case 29: SAYS(MH_GIVEN_BACK, mh_upgrade(g, &weak, v)); break;
    case 30: SAYS(MH_GIVEN_BACK, mh_deaths(g, &weak, 1, v, &out, &out)); break;
    case 31: SAYS(MH_GIVEN_BACK, mh_cycles(g, &cycles)); break;
    case 32: SAYS(MH_GIVEN_BACK, mh_stamp_of(g, &stamp)); break;
    case 33: SAYS(MH_GIVEN_BACK, mh_after(g, &stamp)); break;
    case 34: SAYS(MH_GIVEN_BACK, mh_look(g, v, &what)); break;
    case 35: SAYS(MH_GIVEN_BACK, mh_fields(g, v, w, i)); break;
    default: SAYS(MH_GIVEN_BACK, mh_forget(g, v));
    }
    wrong("what a call by a handle that was given back wrote", out, 77);
    wrong("what it wrote besides", cycles, 77);
    wrong("what it wrote of an object", what.place == 77 && what.value == 77, 1);
    wrong("what it wrote of a stamp", stamp.world, 77);
}

/* A stamp of its own world, and one of another, which is refused wherever the mutator stands. */
static void come_after(struct job *j) {
    mh_stamp stamp = {77};
    SAYS(MH_OK, mh_stamp_of(&j->m, &stamp));
    SAYS(j->place == COLLECTING ? MH_COLLECTING : MH_OK, mh_after(&j->m, &stamp));
    stamp.world++;
    SAYS(MH_REFUSED, mh_after(&j->m, &stamp));
}

/* Steps of help in a stop, this thread's or another's, by the mutator and by the tracer, if the thread has one. */
static void help(struct job *j) {
    uint32_t most = 1 + random_below(j, 40);
    mh_status s = told(j, mh_help_step(&j->m, most));
    SAYS(MH_OUT_OF_RANGE, mh_help_step(&j->m, 0));
    if (j->place != OUTSIDE) must(s, j->place == INSIDE ? MH_INSIDE : MH_COLLECTING, "mh_help_step", __FILE__, __LINE__);
    else if (s != MH_NO_HELP) must(s, MH_OK, "mh_help_step", __FILE__, __LINE__);
    if (!j->t.at) return;
    s = told(j, mh_help_turn(&j->t, most));
    SAYS(MH_OUT_OF_RANGE, mh_help_turn(&j->t, 0));
    if (s != MH_NO_HELP) must(s, j->place == INSIDE ? MH_NO_HELP : MH_OK, "mh_help_turn", __FILE__, __LINE__);
}

/* The tracer goes back to the world and is taken again. */
static void lend_tracer(struct job *j) {
    mh_tracer empty = {0};
    pthread_mutex_lock(&lending);
    if (j->t.at) {
        SAYS(MH_TAKEN, mh_take_tracer(&world, &j->t));
        SAYS(MH_NONE_LEFT, mh_take_tracer(&world, &empty));
        SAYS(MH_STILL_LENT, mh_close(&world));
        SAYS(MH_OK, mh_give_back_tracer(&world, &j->t));
        SAYS(MH_GIVEN_BACK, mh_give_back_tracer(&world, &j->t));
        SAYS(MH_OK, mh_take_tracer(&world, &j->t));
    }
    pthread_mutex_unlock(&lending);
}

/* The mutator goes back to the world and is taken again, with all that its variables refer to. */
static void lend(struct job *j) {
    mh_mutator empty = {0};
    pthread_mutex_lock(&lending);
    SAYS(MH_TAKEN, mh_take_mutator(&world, &j->m));
    SAYS(MH_NONE_LEFT, mh_take_mutator(&world, &empty));
    SAYS(MH_STILL_LENT, mh_close(&world));
    if (j->place == COLLECTING) {
        SAYS(MH_COLLECTING, mh_give_back(&world, &j->m));
    } else {
        SAYS(MH_OK, mh_give_back(&world, &j->m));
        SAYS(MH_GIVEN_BACK, mh_give_back(&world, &j->m));
        SAYS(MH_OK, mh_take_mutator(&world, &j->m));
        j->place = OUTSIDE;
    }
    pthread_mutex_unlock(&lending);
}

static void *work(void *p) {
    struct job *j = p;
    uint64_t until = j->calls, next = 0, hides = 0;
    j->calls = 0;
    begin_shadows(j);
    while (j->calls < until) {
        uint32_t which = random_below(j, 100);
        if (!random_below(j, 64)) turn(j);
        if (!random_below(j, 64)) help(j);
        if (j->place != INSIDE && !random_below(j, 4)) which = 92 + 3 * (j->place == COLLECTING);
        if (which < 10) make(j);
        else if (which < 15) lengthen(j);
        else if (which < 25) move_reference(j);
        else if (which < 45) operate(j, 0);
        else if (which < 70) operate(j, which % 8 == 3 && which % 16 == 3 ? 0 : which % 8);
        else if (which < 71) look_at(j, some_variable(j));
        else if (which < 73) take_fields(j, some_variable(j));
        else if (which < 80) share(j, random_below(j, 11));
        else if (which < 82) move(j, which % 2 + (random_below(j, 256) ? 0 : 3));
        else if (which < 92) move(j, 2);
        else if (which < 96) move(j, j->place == INSIDE ? 2 : which % 4 + (which % 4 == 3));
        else if (which < 99) use_gone(j, random_below(j, 37));
        else if (!random_below(j, 20)) come_after(j);
        else if (!random_below(j, 20)) lend(j);
        else if (!random_below(j, 20)) lend_tracer(j);
        else if (!random_below(j, 20)) forget_all(j);
        else if (!random_below(j, 20)) abandon(j);
        else look_at_cycle(j);
        if (j->calls >= next) {
            come_in(j);
            compare(j);
            go_on();
            next = j->calls + 1000;
        }
        if (j->calls >= hides) {
            hide(j);
            hides = j->calls + HIDES;
        }
    }
    come_in(j);
    compare(j);
    compare_deaths(j);
    MUST(mh_leave(&j->m));
    return 0;
}

int main(int count_of, char **words) {
    static struct job jobs[THREADS];
    pthread_t threads[THREADS];
    uint32_t calls = number(count_of, words, 1, 1000000), n = number(count_of, words, 2, 1), k, s;
    uint64_t seed = number(count_of, words, 3, 1), beside = 0, made = 0, walked = 0, walks = 0, collections = 0, upgrades = 0, deaths = 0;
    uint64_t answers[STATUSES] = {0};
    uint32_t tracers = n < TRACERS ? n : TRACERS;
    mh_sizes sizes = {.fields = FIELDS, .mutators = n, .tracers = tracers};
    end_if_it_spins();
    is_shared = number(count_of, words, 4, 0);
    root_is_others = n > 1;
    cells = sizes.cells = (n * OBJECTS + n * 64 + 63) / 64 * 64 + 64 * n;
    sizes.shared = is_shared;
    sizes.slots = is_shared ? SLOTS : 0;
    MUST(mh_open(&sizes, &world));
    MUST(mh_open(&sizes, &elsewhere));
    MUST(mh_log_cycles(&world, count_beside, &beside));
    for (k = 0; k < n; k++) {
        jobs[k].seed = seed * 0x9e3779b97f4a7c15u + k + 1;
        jobs[k].calls = calls / n;
        MUST(mh_take_mutator(&world, &jobs[k].m));
        if (k < tracers) MUST(mh_take_tracer(&world, &jobs[k].t));
    }
    for (k = 0; k < n; k++) if (pthread_create(&threads[k], 0, work, &jobs[k])) return 2;
    for (k = 0; k < n; k++) pthread_join(threads[k], 0);
    MUST(mh_dismiss(&world));
    for (k = 0; k < tracers; k++) {
        MUST_BE(MH_DISMISSED, mh_trace_turn(&jobs[k].t));
        MUST(mh_give_back_tracer(&world, &jobs[k].t));
    }
    for (k = 0; k < n; k++) {
        MUST(mh_give_back(&world, &jobs[k].m));
        made += jobs[k].calls; walked += jobs[k].walked; walks += jobs[k].walks; collections += jobs[k].collections;
        upgrades += jobs[k].upgrades; deaths += jobs[k].deaths;
        for (s = 0; s < STATUSES; s++) answers[s] += jobs[k].answers[s];
    }
    MUST(mh_close(&world));
    MUST(mh_close(&elsewhere));
    enough_beside(beside, number(count_of, words, 5, 0));
    printf("%-13s %-12s threads %u seed %llu%s: %llu calls, %llu objects compared in %llu walks, %llu collections, %llu upgrades, %llu times dead; answers", "fuzz", COLLECTOR, n,
           (unsigned long long)seed, is_shared ? " shared" : "", (unsigned long long)made, (unsigned long long)walked, (unsigned long long)walks, (unsigned long long)collections,
           (unsigned long long)upgrades, (unsigned long long)deaths);
    for (s = 0; s < STATUSES; s++) if (answers[s]) printf(" %u:%llu", s, (unsigned long long)answers[s]);
    printf("\n");
    return 0;
}
