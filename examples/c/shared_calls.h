/* The calls at random of fuzz.c that are for shared worlds, and what they do to the shadow. In another world each is refused. */
#ifndef SHARED_CALLS_H
#define SHARED_CALLS_H

#include "weak_calls.h"

/* An exchange of a field, which is won every other time or so. */
static void exchange_field(struct job *j, uint32_t v, uint32_t i, uint32_t w) {
    uint32_t e = some_variable(j), won = 77;
    int one = v < VARIABLES, all = one && w < VARIABLES && e < VARIABLES && i < FIELDS;
    int32_t o = one ? j->variable[v] : -1;
    mh_status wanted = unless_nil(if_shared(j, all), o);
    if (o == ROOT && root_is_others) return;
    if (all && random_below(j, 2) && expected(j, 1) == MH_OK) {
        SAYS(MH_OK, mh_get(&j->m, e, v, i));
        j->variable[e] = o < 0 ? -1 : j->of[o].field[i];
        o = j->variable[v];
        wanted = unless_nil(if_shared(j, all), o);
        if (o == ROOT && root_is_others) return;
    }
    SAYS(wanted, mh_exchange(&j->m, v, i, e, w, &won));
    if (wanted != MH_OK) { wrong("what mh_exchange wrote", won, 77); return; }
    wrong("whether an exchange was won", won, j->of[o].field[i] == j->variable[e]);
    if (won) j->of[o].field[i] = j->variable[w];
}

static void exchange_value(struct job *j, uint32_t v) {
    uint32_t value = random_below(j, 1u << 30), won = 77, in_object;
    int32_t o = v < VARIABLES ? j->variable[v] : -1;
    mh_status wanted = unless_nil(if_shared(j, v < VARIABLES), o);
    if (o == ROOT && root_is_others) return;
    in_object = o < 0 || random_below(j, 2) ? random_below(j, 1u << 30) : j->of[o].value;
    SAYS(wanted, mh_exchange_value(&j->m, v, in_object, value, &won));
    if (wanted != MH_OK) { wrong("what mh_exchange_value wrote", won, 77); return; }
    wrong("whether an exchange was won", won, j->of[o].value == in_object);
    if (won) j->of[o].value = value;
}

static void forget_slots(struct job *j) {
    uint32_t from = some_number(j, SLOTS + 1), to = some_number(j, SLOTS + 1), k;
    mh_status wanted = if_shared(j, from <= to && to <= SLOTS);
    SAYS(wanted, mh_forget_slots(&j->m, from, to));
    for (k = from; wanted == MH_OK && k < to; k++) j->slot[k] = -1;
}

/* Asks for the place, or for the number, which are told elsewhere. */
static void ask_which(struct job *j, uint32_t v, int for_place) {
    uint32_t first = 77, second = 77;
    int32_t o = v < VARIABLES ? j->variable[v] : -1;
    mh_status wanted = unless_nil((for_place ? expected : if_shared)(j, v < VARIABLES), o);
    if (for_place) SAYS(wanted, mh_place(&j->m, v, &first));
    else SAYS(wanted, mh_number(&j->m, v, &first, &second));
    if (wanted != MH_OK) { wrong("what was written of which object it is", first, 77); wrong("the rest of it", second, 77); return; }
    if (!for_place) { wrong("which of its maker's an object is", second, j->of[o].number); return; }
    if (j->of[o].lies_at == NOWHERE) j->of[o].lies_at = first;
    wrong("the place of an object", first, j->of[o].lies_at);
}

static void share(struct job *j, uint32_t which) {
    uint32_t v = some_variable(j), w = some_variable(j), i = some_field(j), k = some_number(j, SLOTS);
    mh_status wanted;
    switch (which) {
    case 0:
        wanted = if_shared(j, v < VARIABLES);
        if (wanted == MH_OK && random_below(j, 4)) return;
        SAYS(wanted, mh_root(&j->m, v));
        if (wanted == MH_OK) j->variable[v] = ROOT;
        return;
    case 1: exchange_field(j, v, i, w); return;
    case 2: exchange_value(j, v); return;
    case 3:
        wanted = if_shared(j, v < VARIABLES && k < SLOTS);
        SAYS(wanted, mh_spill(&j->m, v, k));
        if (wanted == MH_OK) j->slot[k] = j->variable[v];
        return;
    case 4:
        wanted = if_shared(j, v < VARIABLES && k < SLOTS);
        SAYS(wanted, mh_fill(&j->m, v, k));
        if (wanted == MH_OK) j->variable[v] = j->slot[k];
        return;
    case 5: forget_slots(j); return;
    case 6: weaken(j, v, w); return;
    case 7: upgrade_some(j); return;
    case 8: look_for_deaths(j, v); return;
    default: ask_which(j, v, which % 2);
    }
}

#endif
