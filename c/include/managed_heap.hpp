/*
 * managed_heap.hpp: handles in C++ over managed_heap.h, which says what each call does and what its statuses mean.
 *
 *   mh::world    a world. It closes once this handle and all its mutators and tracers are gone, in whatever order that is.
 *   mh::mutator  a mutator. It goes back with nothing in its variables and slots.
 *   mh::tracer   a tracer. It goes back.
 *   mh::inside   a scope in which a mutator is inside its world.
 *   mh::local    owns a variable of a mutator.
 *   mh::kept     owns a slot of a mutator.
 *
 * Mutators, locals and kept ones can be moved, and nothing is copied: local::copy gives a second handle. A handle that is empty gets its variable or its slot from the first call that puts
 * something into it, and a destructor hands it on. What it referred to is forgotten before `leave`, `safe_point`, `pressure` and collections of its mutator, and
 * before `make` collects. Another mutator's collection that comes first still keeps it.
 *
 * Each call comes to a mh::status, and none throws. mh::must throws mh::error where a status isn't ok; it is left out where a program has no exceptions. What a
 * handle of another mutator, a handle moved from, or one left over from a mutator given back comes to is a status, too: nothing is done then.
 *
 * One thread at a time uses a mutator with its handles. All threads may use a world: by a short lock one at a time takes from it, gives back to it
 * and asks it. The header compiles as C++17, by gcc and clang.
 */
#ifndef MANAGED_HEAP_HPP
#define MANAGED_HEAP_HPP

#include "managed_heap.h"
#include <initializer_list>
#include <mutex>
#include <new>
#include <utility>
#ifdef __cpp_exceptions
#include <stdexcept>
#endif

namespace mh {

/* What a call came to: the first ones are those of mh_status. */
enum class [[nodiscard]] status : uint32_t {
    ok = MH_OK, not_yet = MH_NOT_YET, stopped = MH_STOPPED, no_cell = MH_NO_CELL, outside = MH_OUTSIDE, collecting = MH_COLLECTING,
    out_of_range = MH_OUT_OF_RANGE, nil = MH_NIL, full = MH_FULL, spent = MH_SPENT, out_of_memory = MH_OUT_OF_MEMORY, given_back = MH_GIVEN_BACK,
    in_use = MH_IN_USE, none_left = MH_NONE_LEFT, refused = MH_REFUSED, idle = MH_IDLE, dismissed = MH_DISMISSED, still_lent = MH_STILL_LENT,
    taken = MH_TAKEN, not_shared = MH_NOT_SHARED, no_cache = MH_NO_CACHE, dead = MH_DEAD, unpublished = MH_UNPUBLISHED, inside = MH_INSIDE, no_help = MH_NO_HELP,
    empty = 100,         /* the handle was moved from, or nothing was put into it yet */
    no_variable = 101,   /* handles own all 32 variables of the mutator */
    no_slot = 102,       /* handles own all its slots */
    other_mutator = 103  /* the handles are those of two mutators */
};

/* A status in words. */
inline const char *text(status s) {
    switch (s) {
    case status::empty: return "the handle was moved from, or nothing was put into it yet";
    case status::no_variable: return "handles own all variables of the mutator";
    case status::no_slot: return "handles own all slots of the mutator";
    case status::other_mutator: return "the handles are those of two mutators";
    default: return mh_status_text(static_cast<mh_status>(s));
    }
}

#ifdef __cpp_exceptions
struct error : std::runtime_error {
    explicit error(status s) : std::runtime_error(text(s)), is(s) {}
    status is;
};
inline void must(status s) {
    if (s != status::ok) throw error(s);
}
#endif

class local;
class kept;
class mutator;
class tracer;

namespace detail {

inline status said(mh_status s) { return static_cast<status>(s); }

/* A world, of which its handle, its mutators and its tracers have a share each: by the lock. */
struct house {
    std::mutex one;
    mh_world w = {};
    uint32_t shares = 1;

    template <class Call> mh_status by_one(Call call) {
        std::lock_guard<std::mutex> held(one);
        return call();
    }
    mh_status lend(mh_status s) {
        if (s == MH_OK) shares++;
        return s;
    }
};

inline void leave_house(house *h) {
    bool is_last;
    {
        std::lock_guard<std::mutex> held(h->one);
        is_last = --h->shares == 0;
    }
    if (!is_last) return;
    (void)mh_close(&h->w);
    delete h;
}

/* Stands for no slot. */
enum : uint32_t { none = 0xffffffffu };

/* A mutator, and which of its variables and slots handles own. It stays, with its handle all zero, until the last of these handles is gone. */
struct seat {
    mh_mutator m = {};
    house *at = nullptr;
    uint32_t shares = 1;
    uint32_t owned = 0, stale = 0;       /* variables, by bits: those of handles, and those that are to be forgotten */
    uint32_t slots = 0, fresh = 0;       /* slots from `fresh` on were never owned */
    uint32_t clean = none, freed = none; /* chains of slots: those that are nil, and those that are to be forgotten */
    uint32_t *next = nullptr;

    ~seat() { free(next); }
    void drop_variable(uint32_t v) {
        owned &= ~(1u << v);
        stale |= 1u << v;
    }
    void drop_slot(uint32_t k) {
        next[k] = freed;
        freed = k;
    }
    uint32_t slot() {
        uint32_t k = freed != none ? freed : clean;
        if (k == none) return fresh < slots ? fresh++ : static_cast<uint32_t>(none);
        (freed != none ? freed : clean) = next[k];
        return k;
    }
    /* Forgets the variables and slots that no handle owns any more. */
    mh_status forget() {
        mh_status s = MH_OK;
        while (stale && (s = mh_forget(&m, static_cast<uint32_t>(__builtin_ctz(stale)))) == MH_OK) stale &= stale - 1;
        while (s == MH_OK && freed != none && (s = mh_forget_slots(&m, freed, freed + 1)) == MH_OK) {
            uint32_t k = freed;
            freed = next[k];
            next[k] = clean;
            clean = k;
        }
        return s;
    }
    /* v refers to a new object, as by mh_make. If a handle owns v only since now, what v refers to is forgotten before a collection too. */
    template <class Step> mh_status make(uint32_t v, bool is_new, Step step) {
        int tries = 0;
        mh_status s;
        while ((s = step(v)) != MH_OK) {
            if (s == MH_NO_CELL) (void)forget();
            if (s == MH_NO_CELL && is_new) (void)mh_forget(&m, v);
            if ((s = mh_make_room(&m, s, &tries)) != MH_OK) return s;
        }
        return s;
    }
};

/* Out of line: where gcc 12 sees several counts go down, it warns of a use after the delete. */
[[gnu::noinline]] inline void leave_seat(seat *s) {
    if (--s->shares == 0) delete s;
}

} // namespace detail

/* Owns a variable. */
class local {
public:
    local() = default;
    local(local &&from) noexcept : seat_(from.seat_), v_(from.v_) { from.seat_ = nullptr; }
    local &operator=(local &&from) noexcept {
        local old(std::move(from));
        std::swap(seat_, old.seat_);
        std::swap(v_, old.v_);
        return *this;
    }
    ~local() { drop(); }

    /* The handle is empty afterwards. */
    void drop() {
        if (!seat_) return;
        seat_->drop_variable(v_);
        detail::leave_seat(seat_);
        seat_ = nullptr;
    }
    bool is_empty() const { return !seat_; }
    /* The number of the variable, for calls in C; not of an empty handle. */
    uint32_t variable() const { return v_; }

    status copy(local &out) const { return into(out, [&](uint32_t w) { return mh_copy(&seat_->m, w, v_); }); }
    /* The object's field. */
    status get(uint32_t i, local &out) const { return into(out, [&](uint32_t w) { return mh_get(&seat_->m, w, v_, i); }); }
    status set(uint32_t i, const local &w) const {
        return with(w, [&] { return mh_set(&seat_->m, v_, i, w.v_); });
    }
    status value(uint32_t &out) const { return by([&] { return mh_value(&seat_->m, v_, &out); }); }
    status put(uint32_t value) const { return by([&] { return mh_put(&seat_->m, v_, value); }); }
    /* The variable becomes nil. */
    status forget() const { return by([&] { return mh_forget(&seat_->m, v_); }); }
    status is_nil(bool &out) const {
        return asked(out, [&](uint32_t *is) { return mh_is_nil(&seat_->m, v_, is); });
    }
    status same(const local &w, bool &out) const {
        status s = with(w, [] { return MH_OK; });
        return s == status::ok ? asked(out, [&](uint32_t *is) { return mh_same(&seat_->m, v_, w.v_, is); }) : s;
    }
    status exchange(uint32_t i, const local &expected, const local &next, bool &won) const {
        status s = with(expected, [] { return MH_OK; });
        if (s == status::ok) s = with(next, [] { return MH_OK; });
        return s == status::ok ? asked(won, [&](uint32_t *is) { return mh_exchange(&seat_->m, v_, i, expected.v_, next.v_, is); }) : s;
    }
    status exchange_value(uint32_t expected, uint32_t next, bool &won) const {
        return asked(won, [&](uint32_t *is) { return mh_exchange_value(&seat_->m, v_, expected, next, is); });
    }
    /* The place and the value of the object. */
    status look(mh_object &out) const { return by([&] { return mh_look(&seat_->m, v_, &out); }); }
    /* The object's first `count` fields, in handles that get variables side by side, and are as before if the call isn't done. */
    status fields(local *outs, uint32_t count) const;
    status place(uint32_t &out) const { return by([&] { return mh_place(&seat_->m, v_, &out); }); }
    status number(uint32_t &section, uint32_t &number) const { return by([&] { return mh_number(&seat_->m, v_, &section, &number); }); }
    status weak(mh_weak &out) const { return by([&] { return mh_weak_of(&seat_->m, v_, &out); }); }

private:
    friend class kept;
    friend class mutator;
    friend class field;

    template <class Call> status by(Call call) const { return seat_ ? detail::said(call()) : status::empty; }
    template <class Call> status with(const local &w, Call call) const {
        if (!seat_ || !w.seat_) return status::empty;
        return seat_ == w.seat_ ? detail::said(call()) : status::other_mutator;
    }
    template <class Call> status asked(bool &out, Call call) const {
        uint32_t is = 0;
        status s = by([&] { return call(&is); });
        if (s == status::ok) out = is != 0;
        return s;
    }
    template <class Call> status into(local &out, Call call) const { return seat_ ? out.become(seat_, call) : status::empty; }
    /* Has a call put something into the variable: an empty handle gets one first, which it keeps if the call is done. */
    template <class Call> status become(detail::seat *s, Call call) {
        if (seat_) return seat_ == s ? detail::said(call(v_)) : status::other_mutator;
        if (s->owned == 0xffffffffu) return status::no_variable;
        own(s, static_cast<uint32_t>(__builtin_ctz(~s->owned)));
        status done = detail::said(call(v_));
        if (done != status::ok) drop();
        return done;
    }
    void own(detail::seat *s, uint32_t v) {
        seat_ = s;
        v_ = v;
        s->owned |= 1u << v;
        s->stale &= ~(1u << v);
        s->shares++;
    }

    detail::seat *seat_ = nullptr;
    uint32_t v_ = 0;
};

inline status local::fields(local *outs, uint32_t count) const {
    if (!seat_) return status::empty;
    if (count > 16) return status::out_of_range;
    detail::seat *const s = seat_;
    const uint32_t run = (1u << count) - 1;
    uint32_t first = 0, k;
    while (first + count <= MH_VARIABLES && (s->owned & run << first)) first++;
    if (first + count > MH_VARIABLES) return status::no_variable;
    s->stale |= run << first;
    status done = detail::said(mh_fields(&s->m, v_, first, count));
    for (k = 0; done == status::ok && k < count; k++) {
        local taken;
        taken.own(s, first + k);
        outs[k] = std::move(taken);
    }
    return done;
}

/* Stands for no object among the fields of `make`. */
struct nothing_t {};
inline constexpr nothing_t nothing{};

/* What a field of a new object becomes. */
class field {
public:
    field(const local &w) : seat_(w.seat_), v_(w.v_) {}
    field(nothing_t) : v_(MH_NOTHING) {}

private:
    friend class mutator;
    detail::seat *seat_ = nullptr;
    uint32_t v_;
};

/* Owns a slot. */
class kept {
public:
    kept() = default;
    kept(kept &&from) noexcept : seat_(from.seat_), k_(from.k_) { from.seat_ = nullptr; }
    kept &operator=(kept &&from) noexcept {
        kept old(std::move(from));
        std::swap(seat_, old.seat_);
        std::swap(k_, old.k_);
        return *this;
    }
    ~kept() { drop(); }

    void drop() {
        if (!seat_) return;
        seat_->drop_slot(k_);
        detail::leave_seat(seat_);
        seat_ = nullptr;
    }
    bool is_empty() const { return !seat_; }

    /* The slot becomes what w is. */
    status keep(const local &w) {
        if (!w.seat_) return status::empty;
        if (seat_) return seat_ == w.seat_ ? detail::said(mh_spill(&seat_->m, w.v_, k_)) : status::other_mutator;
        if (!w.seat_->m.at) return status::given_back;
        if ((k_ = w.seat_->slot()) == detail::none) return status::no_slot;
        seat_ = w.seat_;
        seat_->shares++;
        status done = detail::said(mh_spill(&seat_->m, w.v_, k_));
        if (done != status::ok) drop();
        return done;
    }
    status get(local &out) const {
        return seat_ ? out.become(seat_, [&](uint32_t v) { return mh_fill(&seat_->m, v, k_); }) : status::empty;
    }

private:
    detail::seat *seat_ = nullptr;
    uint32_t k_ = 0;
};

/* A mutator. Its destructor waits, if it has to, as mh_abandon does, so its thread is outside then by its other mutators. */
class mutator {
public:
    mutator() = default;
    mutator(mutator &&from) noexcept : seat_(from.seat_) { from.seat_ = nullptr; }
    mutator &operator=(mutator &&from) noexcept {
        mutator old(std::move(from));
        std::swap(seat_, old.seat_);
        return *this;
    }
    /* If it can't be given back its world never closes. */
    ~mutator() { (void)give_back(); }

    /* Gives it back, with nothing in its variables and slots. What handles are left over come to status::given_back from then on. */
    status give_back() {
        if (!seat_) return status::empty;
        detail::house *at = seat_->at;
        mh_status s = mh_forget_all(&seat_->m);
        if (s == MH_OK) s = at->by_one([&] { return mh_give_back(&at->w, &seat_->m); });
        for (uint32_t rests = 0; s != MH_OK && (s = step_out(rests)) == MH_NOT_YET;) {}
        if (s != MH_OK) return detail::said(s);
        detail::leave_seat(seat_);
        seat_ = nullptr;
        detail::leave_house(at);
        return status::ok;
    }

    status enter() { return by([](detail::seat &s) { return mh_enter(&s.m); }); }
    status leave() { return by_tidy(mh_leave); }
    status safe_point() { return by_tidy(mh_safe_point); }
    status collect() { return by_tidy(mh_collect); }
    status finish() { return by_tidy(mh_finish); }
    status pressure(uint64_t bytes) {
        return by_tidy([&](mh_mutator *m) { return mh_pressure(m, bytes); });
    }
    status cycles(uint64_t &out) { return by([&](detail::seat &s) { return mh_cycles(&s.m, &out); }); }
    status stamp(mh_stamp &out) { return by([&](detail::seat &s) { return mh_stamp_of(&s.m, &out); }); }
    status after(const mh_stamp &stamp) { return by([&](detail::seat &s) { return mh_after(&s.m, &stamp); }); }

    status make(local &out, uint32_t value) {
        return made(out, [&](uint32_t v) { return mh_make_step(&seat_->m, v, value); });
    }
    /* A new object with these first fields. `out` among them is what it was before. */
    status make(local &out, uint32_t value, std::initializer_list<field> fields) {
        uint32_t numbers[16], count = 0;
        bool has_out = false;
        if (fields.size() > 16) return status::out_of_range;
        for (const field &f : fields) {
            if (f.v_ != MH_NOTHING && !f.seat_) return status::empty;
            if (f.v_ != MH_NOTHING && f.seat_ != seat_) return seat_ ? status::other_mutator : status::empty;
            has_out = has_out || (f.v_ != MH_NOTHING && out.seat_ == seat_ && out.v_ == f.v_);
            numbers[count++] = f.v_;
        }
        auto step = [&](uint32_t v) { return mh_make_with_step(&seat_->m, v, value, numbers, count); };
        if (!has_out) return made(out, step);
        local made_now;
        status s = made(made_now, step);
        if (s == status::ok) out = std::move(made_now);
        return s;
    }
    /* The handle refers to nothing, and owns a variable. */
    status nil(local &out) { return into(out, [&](uint32_t v) { return mh_forget(&seat_->m, v); }); }
    status root(local &out) { return into(out, [&](uint32_t v) { return mh_root(&seat_->m, v); }); }
    status upgrade(const mh_weak &weak, local &out) { return into(out, [&](uint32_t v) { return mh_upgrade(&seat_->m, &weak, v); }); }
    /* As mh_deaths, by a variable that is free. */
    status deaths(const mh_weak *weaks, uint32_t count, uint32_t *dead, uint32_t &many) {
        local spare;
        return into(spare, [&](uint32_t v) { return mh_deaths(&seat_->m, weaks, count, v, dead, &many); });
    }
    /* For calls in C. They leave alone the variables that handles don't own: a handle may come to own them. Null if it is empty. */
    mh_mutator *in_c() { return seat_ ? &seat_->m : nullptr; }

private:
    friend class world;
    template <class Call> status by(Call call) { return seat_ ? detail::said(call(*seat_)) : status::empty; }
    template <class Call> status by_tidy(Call call) {
        if (!seat_) return status::empty;
        (void)seat_->forget();
        return detail::said(call(&seat_->m));
    }
    template <class Call> status into(local &out, Call call) { return seat_ ? out.become(seat_, call) : status::empty; }
    template <class Step> status made(local &out, Step step) {
        bool is_new = out.is_empty();
        return into(out, [&](uint32_t v) { return seat_->make(v, is_new, step); });
    }
    /* A step of mh_abandon, with the rest behind it: MH_NOT_YET if one more is to follow. */
    mh_status step_out(uint32_t &rests) {
        detail::house *at = seat_->at;
        uint32_t stopping = 0;
        mh_status s = at->by_one([&] { return mh_abandon_step(&at->w, &seat_->m, 0, MH_STEP); });
        if (s == MH_STOPPED) mh_rest_until(at->w.book, MH_GOING_ON, &rests);
        else if (s == MH_NOT_YET && mh_is_stopping(&seat_->m, &stopping) == MH_OK && stopping) mh_rest_until(at->w.book, MH_LEAVING, &rests);
        return s == MH_STOPPED ? MH_NOT_YET : s;
    }

    detail::seat *seat_ = nullptr;
};

/* A scope in which a mutator is inside. Where `entered` isn't ok it isn't, and nothing is done at the end. */
class inside {
public:
    explicit inside(mutator &m) : m_(m), entered_(m.enter()) {}
    inside(const inside &) = delete;
    inside &operator=(const inside &) = delete;
    ~inside() {
        if (entered_ == status::ok) (void)m_.leave();
    }
    status entered() const { return entered_; }

private:
    mutator &m_;
    status entered_;
};

/* A tracer, which isn't moved. The thread that traces ends before it does. */
class tracer {
public:
    tracer() = default;
    tracer(const tracer &) = delete;
    tracer &operator=(const tracer &) = delete;
    ~tracer() { (void)give_back(); }

    /* Marks until the world dismisses its tracers: status::dismissed. */
    status trace() { return detail::said(mh_trace(&t_)); }
    status turn() { return detail::said(mh_trace_turn(&t_)); }
    status help(uint32_t most) { return detail::said(mh_help_turn(&t_, most)); }
    status give_back() {
        if (!at_) return status::empty;
        mh_status s = at_->by_one([&] { return mh_give_back_tracer(&at_->w, &t_); });
        if (s != MH_OK) return detail::said(s);
        detail::leave_house(at_);
        at_ = nullptr;
        return status::ok;
    }

private:
    friend class world;
    mh_tracer t_ = {};
    detail::house *at_ = nullptr;
};

/* A world. */
class world {
public:
    world() = default;
    world(const world &) = delete;
    world &operator=(const world &) = delete;
    ~world() { release(); }

    status open(const mh_sizes &sizes) {
        if (at_) return status::taken;
        detail::house *h = new (std::nothrow) detail::house;
        if (!h) return status::out_of_memory;
        mh_status s = mh_open(&sizes, &h->w);
        if (s == MH_OK) at_ = h;
        else delete h;
        slots_ = sizes.slots;
        return detail::said(s);
    }
    /* The handle is empty afterwards. The world closes now if none of its mutators and tracers is left, and else with the last of them. */
    void release() {
        if (at_) detail::leave_house(at_);
        at_ = nullptr;
    }

    /* Takes a mutator, which is outside, with nothing in its variables and slots. */
    status take(mutator &m) {
        if (!at_) return status::empty;
        if (m.seat_) return status::taken;
        detail::seat *s = new (std::nothrow) detail::seat;
        if (!s || (slots_ && !(s->next = static_cast<uint32_t *>(calloc(slots_, sizeof *s->next))))) {
            delete s;
            return status::out_of_memory;
        }
        s->at = at_;
        s->slots = slots_;
        status taken = detail::said(at_->by_one([&] { return at_->lend(mh_take_mutator(&at_->w, &s->m)); }));
        if (taken == status::ok) m.seat_ = s;
        else delete s;
        return taken;
    }
    status take(tracer &t) {
        if (!at_) return status::empty;
        if (t.at_) return status::taken;
        status taken = detail::said(at_->by_one([&] { return at_->lend(mh_take_tracer(&at_->w, &t.t_)); }));
        if (taken == status::ok) t.at_ = at_;
        return taken;
    }
    /* Tells all tracers that they are dismissed, for good. */
    status dismiss() {
        if (!at_) return status::empty;
        mh_status s;
        for (uint32_t rests = 0; (s = at_->by_one([&] { return mh_dismiss_step(&at_->w); })) == MH_STOPPED;) mh_rest_until(at_->w.book, MH_GOING_ON, &rests);
        return detail::said(s);
    }
    status statistics(mh_numbers &out) { return by([&](mh_world *w) { return mh_statistics(w, &out); }); }
    status last_cycle(mh_cycle &out) { return by([&](mh_world *w) { return mh_last_cycle(w, &out); }); }
    status percent_kept(uint32_t &out) { return by([&](mh_world *w) { return mh_percent_kept(w, &out); }); }
    status limit_pressure(uint64_t bytes) { return by([&](mh_world *w) { return mh_limit_pressure(w, bytes); }); }
    status log_cycles(mh_sink *sink, void *context) { return by([&](mh_world *w) { return mh_log_cycles(w, sink, context); }); }

private:
    template <class Call> status by(Call call) { return at_ ? detail::said(at_->by_one([&] { return call(&at_->w); })) : status::empty; }

    detail::house *at_ = nullptr;
    uint32_t slots_ = 0;
};

} // namespace mh
#endif
