/* The calls at random of fuzz.c that ask several things at once: where an object lies and its value, and all of its first fields. */
#ifndef LOOKING_CALLS_H
#define LOOKING_CALLS_H

#include "shadow.h"

/* Asks where the object lies, and for its value, at once. */
static void look_at(struct job *j, uint32_t v) {
    mh_object what = {77, 77};
    int32_t o = v < VARIABLES ? j->variable[v] : -1;
    mh_status wanted = unless_nil(expected(j, v < VARIABLES), o);
    SAYS(wanted, mh_look(&j->m, v, &what));
    if (wanted != MH_OK) { wrong("the place that mh_look wrote", what.place, 77); wrong("the value that it wrote", what.value, 77); return; }
    if (j->of[o].lies_at == NOWHERE) j->of[o].lies_at = what.place;
    wrong("the place of an object", what.place, j->of[o].lies_at);
    wrong("the value of an object", what.value, j->of[o].value);
}

/* Variable w is what this shadow says. */
static void compare_taken(struct job *j, uint32_t w, int32_t o) {
    uint32_t nil = 77, at = NOWHERE;
    SAYS(MH_OK, mh_is_nil(&j->m, w, &nil));
    wrong("whether a field that was taken is nil", nil, o < 0);
    if (o < 0) return;
    SAYS(MH_OK, mh_place(&j->m, w, &at));
    if (j->of[o].lies_at == NOWHERE) j->of[o].lies_at = at;
    wrong("the place of a field that was taken", at, j->of[o].lies_at);
}

/* Takes fields into variables, one of which may be the object's own, or none. */
static void take_fields(struct job *j, uint32_t v) {
    uint32_t first = some_variable(j), count = some_number(j, FIELDS + 1), k;
    int32_t o = v < VARIABLES ? j->variable[v] : -1;
    int fits = v < VARIABLES && first <= VARIABLES && count <= FIELDS && count <= VARIABLES - first && (v < first || v - first >= count);
    mh_status wanted = expected(j, fits);
    SAYS(wanted, mh_fields(&j->m, v, first, count));
    for (k = 0; wanted == MH_OK && k < count; k++) j->variable[first + k] = o < 0 ? -1 : j->of[o].field[k];
    for (k = 0; wanted == MH_OK && k < count; k++) compare_taken(j, first + k, j->variable[first + k]);
}

#endif
