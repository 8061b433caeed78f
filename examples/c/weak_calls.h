/* The calls at random of fuzz.c that are about weak references, with numbers that are wrong too. A thread keeps some, and asks again and again whether their objects
   are dead: never one that its shadow finds reachable, and never one alive that was dead. */
#ifndef WEAK_CALLS_H
#define WEAK_CALLS_H

#include "shadow.h"

/* A weak reference some number of which is none of the world's, or another object's, and what its upgrade is to answer. */
static mh_status make_odd(struct job *j, mh_weak *weak) {
    switch (random_below(j, 8)) {
    case 0: weak->world ^= 1; return MH_REFUSED;
    case 1: weak->world = random_below(j, 0xffffffff) & (MH_NAMES - 1); return MH_REFUSED;
    case 2: weak->place += cells; return MH_OUT_OF_RANGE;
    case 3: weak->place = 0xffffffff; return MH_OUT_OF_RANGE;
    case 4: weak->section += THREADS + 1; return MH_OUT_OF_RANGE;
    case 5: weak->number = 0xffffffff; return MH_OUT_OF_RANGE;
    case 6: weak->number++; return MH_DEAD;
    default: weak->place = (weak->place + 1) % cells; return MH_DEAD;
    }
}

/* A weak reference that is odd is refused, or its object is dead, as none is of this number at this place. */
static void upgrade_odd(struct job *j, mh_weak weak, uint32_t w) {
    mh_status wanted = make_odd(j, &weak), by_place = if_shared(j, w < VARIABLES);
    if (wanted == MH_DEAD || (wanted == MH_OUT_OF_RANGE && by_place == MH_NOT_SHARED)) wanted = by_place == MH_OK ? MH_DEAD : by_place;
    SAYS(wanted, mh_upgrade(&j->m, &weak, w));
    if (wanted == MH_DEAD) j->variable[w] = -1;
}

/* A weak reference to the object of v is taken, and kept or spoiled; and the object is had again by it in w. */
static void weaken(struct job *j, uint32_t v, uint32_t w) {
    mh_weak weak = {77, 77, 77, 77};
    uint32_t k = random_below(j, KEPT);
    int32_t o = v < VARIABLES ? j->variable[v] : -1;
    mh_status wanted = unless_nil(if_shared(j, v < VARIABLES), o);
    SAYS(wanted, mh_weak_of(&j->m, v, &weak));
    if (wanted != MH_OK) {
        wrong("what mh_weak_of wrote", weak.world == 77 && weak.place == 77 && weak.section == 77 && weak.number == 77, 1);
        SAYS(MH_REFUSED, mh_upgrade(&j->m, &weak, w));
        return;
    }
    wrong("which of its maker's a weak reference is to", weak.number, j->of[o].number);
    j->weak[k] = weak;
    j->weakened[k] = o;
    j->dead[k] = 0;
    if (!random_below(j, 3)) { upgrade_odd(j, weak, w); return; }
    SAYS(w < VARIABLES ? MH_OK : MH_OUT_OF_RANGE, mh_upgrade(&j->m, &weak, w));
    if (w < VARIABLES) j->variable[w] = o;
}

/* Whether the object of a kept weak reference is reachable. The shadow may be another object's by now. */
static int is_reachable(struct job *j, uint32_t k) {
    const struct shadow *o = &j->of[j->weakened[k]];
    return o->number == j->weak[k].number && o->seen == j->round;
}

/* What was told of the object of a kept weak reference, once the reachable shadows are known. */
static void told_of_death(struct job *j, uint32_t k, int is_dead) {
    if (is_dead && is_reachable(j, k)) wrong("whether a reachable object is dead", 1, 0);
    if (j->dead[k] && !is_dead) wrong("whether a dead object is dead", 0, 1);
    j->dead[k] = (unsigned char)is_dead;
    j->deaths += (uint32_t)is_dead;
}

/* w became the object of a kept weak reference. One that nothing else reaches is let go of again, since its shadow, or a shadow in its fields, may be another's. */
static void came_back(struct job *j, uint32_t k, uint32_t w) {
    uint32_t maker = 77, number = 77;
    MUST(mh_number(&j->m, w, &maker, &number));
    wrong("the maker of an object that came back", maker, j->weak[k].section);
    wrong("which of its maker's it is", number, j->weak[k].number);
    j->upgrades++;
    j->variable[w] = is_reachable(j, k) ? j->weakened[k] : -1;
    if (j->variable[w] < 0) SAYS(MH_OK, mh_forget(&j->m, w));
}

/* A kept weak reference is upgraded into w. */
static void upgrade_one(struct job *j, uint32_t k, uint32_t w) {
    mh_status wanted = if_shared(j, w < VARIABLES), s;
    if (!j->weak[k].world) { SAYS(MH_REFUSED, mh_upgrade(&j->m, &j->weak[k], w)); return; }
    if (wanted == MH_OK) reach(j);
    s = told(j, mh_upgrade(&j->m, &j->weak[k], w));
    if (wanted != MH_OK) { must(s, wanted, "mh_upgrade", __FILE__, __LINE__); return; }
    if (s != MH_DEAD) must(s, MH_OK, "mh_upgrade", __FILE__, __LINE__);
    told_of_death(j, k, s == MH_DEAD);
    if (s == MH_OK) came_back(j, k, w);
    else j->variable[w] = -1;
}

/* Some that are kept are upgraded, one behind the other. */
static void upgrade_some(struct job *j) {
    uint32_t k = random_below(j, KEPT), many = KEPT / 2;
    for (; many--; k = (k + 1) % KEPT) upgrade_one(j, k, some_variable(j));
}

/* All kept weak references are gone through, the last of them with one that is refused behind them. */
static void look_for_deaths(struct job *j, uint32_t v) {
    mh_weak all[KEPT + 1];
    uint32_t dead[KEPT + 1], many = 77, k, at = 0, odd = random_below(j, 4) == 0;
    mh_status wanted = expected(j, v < VARIABLES);
    memcpy(all, j->weak, sizeof j->weak);
    all[KEPT] = (mh_weak){1, 0, 0, 0};
    if (wanted == MH_OK) reach(j);
    SAYS(wanted == MH_OK && odd ? MH_REFUSED : wanted, mh_deaths(&j->m, all, KEPT + odd, v, dead, &many));
    if (wanted != MH_OK) { wrong("what mh_deaths wrote", many, 77); return; }
    j->variable[v] = -1;
    for (k = 0; k < KEPT; k++) {
        int is_dead = at < many && dead[at] == k;
        at += (uint32_t)is_dead;
        if (j->weak[k].world) told_of_death(j, k, is_dead);
        else if (is_dead) wrong("whether none is dead", 1, 0);
    }
    wrong("how many are dead", many, at);
}

/* After a precise collection exactly the reachable ones are alive. */
static void compare_deaths(struct job *j) {
    uint32_t k;
    if (!is_shared) return;
    MUST(mh_collect(&j->m));
    look_for_deaths(j, FOUND);
    for (k = 0; k < KEPT; k++)
        if (j->weak[k].world) wrong("whether an object is dead after a precise collection", j->dead[k], !is_reachable(j, k));
}

#endif
