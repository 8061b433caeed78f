/*
 * Handles that are used wrongly, without exceptions: each use comes to its one status, and nothing else changes.
 */
#include "test.hpp"
#include <vector>

using mh::status;

/* Handles that have nothing, and those that were moved from. */
static void nothing_there(mh::mutator &m) {
    mh::local a, b;
    mh::kept k;
    uint32_t value = 7;
    expect(a.value(value), status::empty, "the value of an empty handle");
    done(m.make(a, 1), "an object");
    done(k.keep(a), "a slot");
    b = std::move(a);
    mh::kept l(std::move(k));
    expect(a.value(value), status::empty, "the value of a handle moved from");
    expect(b.set(0, a), status::empty, "a field becomes what a handle moved from is");
    expect(m.make(b, 2, {a}), status::empty, "a new object with a handle moved from");
    expect(k.get(a), status::empty, "a slot's handle moved from");
    expect(k.keep(a), status::empty, "a handle moved from into a slot");
    expect(value, 7, "what no call wrote");
    done(b.value(value), "the value");
    expect(value, 1, "the value");
    done(l.get(a), "the slot");
    b.drop();
    expect(b.put(3), status::empty, "the value of a handle dropped");
}

/* A mutator has 32 variables, and as many slots as its world says. */
static void all_owned(mh::mutator &m, uint32_t slots) {
    std::vector<mh::local> all(MH_VARIABLES);
    std::vector<mh::kept> held(slots);
    mh::local more;
    mh::kept one_more;
    uint32_t value = 0;
    for (uint32_t k = 0; k < MH_VARIABLES; k++) done(m.make(all[k], k), "an object");
    for (mh::kept &k : held) done(k.keep(all[0]), "a slot");
    expect(m.make(more, 1), status::no_variable, "one variable more");
    expect(all[0].copy(more), status::no_variable, "one variable more for a copy");
    expect(one_more.keep(all[0]), status::no_slot, "one slot more");
    expect(more.is_empty() && one_more.is_empty(), true, "whether what failed is empty");
    all[5].drop();
    held[3].drop();
    done(m.make(more, 33), "an object in the variable that was dropped");
    done(one_more.keep(more), "the slot that was dropped");
    for (uint32_t k = 0; k < MH_VARIABLES; k++) {
        if (k == 5) continue;
        done(all[k].value(value), "a value");
        expect(value, k, "a value");
    }
}

/* What handles of two mutators come to, and the library's own statuses. */
static void of_others(mh::mutator &m, mh::mutator &other) {
    mh::local a, b, nil;
    mh::kept k;
    bool is = false;
    uint32_t value = 0;
    done(m.make(a, 1), "an object");
    done(m.leave(), "out");
    done(other.enter(), "in");
    done(other.make(b, 2), "another's object");
    expect(a.set(0, b), status::other_mutator, "a field becomes what another's handle is");
    expect(a.same(b, is), status::other_mutator, "whether two mutators' handles are one");
    expect(other.make(b, 2, {a}), status::other_mutator, "a new object with another's handle");
    expect(other.make(a, 2), status::other_mutator, "a new object for another's handle");
    done(k.keep(b), "a slot");
    expect(k.get(a), status::other_mutator, "another's slot");
    expect(a.value(value), status::outside, "a value from outside");
    expect(m.make(nil, 1), status::outside, "an object from outside");
    done(other.leave(), "out");
    done(m.enter(), "in");
    done(m.nil(nil), "a nil variable");
    expect(nil.value(value), status::nil, "the value of nil");
    expect(a.get(16, nil), status::out_of_range, "a field that isn't there");
}

/* A stamp of another world, and one of its own. */
static void other_stamps(mh::mutator &m) {
    mh::world world;
    mh::mutator n, none;
    mh_stamp own = {}, others = {};
    done(world.open(sizes_of(64, 1, 1, 0, 0)), "another world");
    done(world.take(n), "its mutator");
    done(m.stamp(own), "a stamp");
    done(n.stamp(others), "another world's");
    expect(m.after(others), status::refused, "after another world's stamp");
    expect(n.after(own), status::refused, "after a stamp in another world");
    expect(none.after(own), status::empty, "after a stamp by no mutator");
    expect(none.stamp(others), status::empty, "a stamp by no mutator");
    done(m.after(own), "after a stamp");
    done(n.after(others), "after a stamp in its own world");
}

/* Handles that outlive their mutator. */
static void left_over(mh::world &world, mh::mutator &&m) {
    mh::local a, b;
    mh::kept k;
    uint32_t value = 0;
    done(m.make(a, 1), "an object");
    done(k.keep(a), "a slot");
    done(m.give_back(), "the mutator goes back");
    expect(a.value(value), status::given_back, "a value after that");
    expect(a.copy(b), status::given_back, "a copy after that");
    expect(k.get(b), status::given_back, "a slot after that");
    expect(k.keep(a), status::given_back, "into a slot after that");
    expect(m.make(b, 1), status::empty, "an object by what is no mutator");
    expect(m.give_back(), status::empty, "the mutator goes back again");
    mh::mutator next;
    done(world.take(next), "the mutator is taken again");
    done(next.enter(), "in");
    expect(a.value(value), status::given_back, "a value by the old handle");
    expect(world.take(next), status::taken, "a mutator for a handle that has one");
    done(next.leave(), "out");
}

/* An object is looked at, and its fields are taken: into handles that keep what they have if the call isn't done. */
static void looked_at(mh::mutator &m) {
    mh::local a, nil, none, fields[3];
    mh_object what = {7, 7};
    uint32_t place = 0, value = 0;
    bool is = false;
    done(m.make(a, 5), "an object");
    done(a.set(1, a), "its second field");
    done(m.nil(nil), "a nil variable");
    expect(none.look(what), status::empty, "a look by an empty handle");
    expect(nil.look(what), status::nil, "a look at nothing");
    expect(what.place == 7 && what.value == 7, true, "whether nothing was written");
    done(a.look(what), "a look");
    done(a.place(place), "a place");
    expect(what.place, place, "the place that a look tells");
    expect(what.value, 5, "the value that a look tells");
    done(m.make(fields[0], 9), "what a field's handle had before");
    expect(none.fields(fields, 2), status::empty, "the fields of an empty handle");
    expect(a.fields(fields, 3), status::out_of_range, "three fields of two");
    expect(a.fields(fields, 17), status::out_of_range, "more fields than an object can have");
    done(fields[0].value(value), "what the handle has still");
    expect(value, 9, "what the handle has still");
    done(a.fields(fields, 2), "two fields");
    done(fields[0].is_nil(is), "the first");
    expect(is, true, "whether the first is nil");
    done(fields[1].same(a, is), "the second");
    expect(is, true, "whether the second is the object");
    expect(fields[2].is_empty(), true, "whether the third has none");
    std::vector<mh::local> all;
    while (all.emplace_back(), m.nil(all.back()) == status::ok) {}
    all.erase(all.begin() + 3);
    all.erase(all.begin() + 8);
    expect(a.fields(&none, 1), status::ok, "a field into one of two variables that are left");
    expect(a.fields(fields, 2), status::no_variable, "two fields, where no two variables side by side are left");
}

static void build(mh::mutator &m, mh::local &list, uint32_t length) {
    done(m.nil(list), "a list");
    for (uint32_t k = 0; k < length; k++) done(m.make(list, k, {list, mh::nothing}), "a list's next object");
}

/* What dropped handles referred to is garbage for `make`: two lists of 100 don't fit in 128 cells, neither by variables nor by slots. */
static void dropped(mh::mutator &m) {
    for (uint32_t round = 0; round < 20; round++) {
        std::vector<mh::local> all(MH_VARIABLES - 2);
        mh::local list;
        mh::kept k;
        for (mh::local &it : all) done(m.nil(it), "a variable");
        build(m, list, 100);
        done(list.copy(all.back()), "a copy");
        done(k.keep(list), "a slot");
    }
    done(m.collect(), "a collection");
}

int main() {
    enum : uint32_t { slots = 8 };
    mh::local outlives;
    mh::world none;
    mh::mutator m, other, third;
    expect(none.take(m), status::empty, "a mutator of no world");
    expect(none.dismiss(), status::empty, "no world's tracers");
    expect(m.enter(), status::empty, "no mutator enters");
    {
        mh::world world;
        mh_numbers numbers = {};
        uint32_t percent = 0;
        expect(world.open(sizes_of(65, 2, 2, 0, slots)), status::out_of_range, "a world of 65 cells");
        done(world.open(sizes_of(128, 2, 2, 0, slots)), "a world");
        expect(world.open(sizes_of(128, 2, 2, 0, slots)), status::taken, "a world in one that is open");
        done(world.take(m), "a mutator");
        done(world.take(other), "another");
        expect(world.take(third), status::none_left, "a third of two");
        done(m.enter(), "in");
        nothing_there(m);
        looked_at(m);
        all_owned(m, slots);
        of_others(m, other);
        other_stamps(m);
        dropped(m);
        done(world.percent_kept(percent), "how full it is");
        done(world.statistics(numbers), "its numbers");
        expect(numbers.cells, 128, "its cells");
        expect(percent, 2, "how full it is with its root and an object in another's slot"); /* 2 cells of 128 */
        left_over(world, std::move(m));
        done(other.enter(), "in");
        done(other.make(outlives, 5), "an object that outlives its world's handle");
    }
    uint32_t value = 0;
    done(outlives.value(value), "its value while its mutator is there");
    expect(value, 5, "its value");
    done(other.give_back(), "the last mutator goes back, and the world closes");
    expect(outlives.put(6), status::given_back, "the value of an object of a closed world");
    std::printf("wrong_use: each came to its status\n");
    return 0;
}
