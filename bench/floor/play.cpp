// The floor of a play: the words and steps of the heap, each step one sequentially consistent operation on an atomic word, played from a list of
// commands. It has no records and no proofs, and prints what gcplay prints. It counts on scripts that don't fill the heap.
#include <thread>
#include <vector>

#include "../peers/script.hpp"
#include "../peers/text.hpp"
#include "world.hpp"

namespace {

using namespace bare;

struct Player {
    Seat seat;
    uint64_t count = 0;
    text::Outcome outcome;
};

class Play {
  public:
    Play(const script::Script &s, const text::Options &options)
        : script_(s), options_(options), heap_({options.cells, options.packets, options.entries, s.sections.size(), s.fields}), players_(s.sections.size()) {
        for (size_t k = 0; k < players_.size(); k++) players_[k].seat.section = k;
    }

    void play() {
        for (uint32_t season = 0; season < script_.seasons; season++) {
            if (season > 0) turn_season(false);
            play_catalogue(season);
            turn_season(false);
            play_warehouses(season);
        }
        turn_season(true);
    }

    void write() {
        std::vector<text::Outcome> outcomes;
        for (Player &player : players_) outcomes.push_back(std::move(player.outcome));
        std::vector<text::Survivor> survivors;
        for (uint64_t c = 0; c < heap_.sizes.cells; c++) {
            if (heap_.words[heap_.allocs + c / 64].load() >> c % 64 & 1) survivors.push_back(object_at(c));
        }
        text::write(script_, outcomes, survivors);
        heap_.close();
        if (options_.counts) fprintf(stderr, "%lu %lu %lu\n", events.cycles.load(), events.stops.load(), events.longest.load());
#ifdef COUNTED
        fprintf(stderr, "%lu %lu %lu\n", steps.loads.load(), steps.stores.load(), steps.fetches.load());
#endif
    }

  private:
    text::Survivor object_at(uint64_t c) const {
        uint64_t identity = heap_.words[heap_.identities + c].load();
        return {identity / kFlag, identity % kFlag, heap_.words[heap_.values + c].load()};
    }

    // The catalogue's seat ends a cycle in a stop, and moves the season on. At the end of the play only what is reachable is left.
    void turn_season(bool end) {
        Seat &seat = players_[0].seat;
        while (!raise(heap_)) await_resumed_helping(heap_);
        await_stopped(heap_, seat);
        if (heap_.words[kPhase].load() == kMarking) {
            finish_cycle(heap_);
            events.cycles++;
        }
        heap_.words[heap_.season].fetch_add(1);
        if (end) precise(heap_);
        resume(heap_, seat);
        heap_.words[kWorld].fetch_sub(1);
    }

    void play_catalogue(uint32_t season) {
        if (script_.has_catalogue) return play_part(0, season);
        go_in(heap_, players_[0].seat);
        heap_.words[kDone].fetch_add(1);
        heap_.words[kWorld].fetch_sub(1);
    }

    void play_warehouses(uint32_t season) {
        uint64_t until = (season + 1) * players_.size();
        std::vector<std::thread> threads;
        for (uint32_t t = 0; t < options_.tracers; t++) threads.emplace_back([=, this] { run_tracer(until); });
        for (uint32_t w = 0; w < options_.workers; w++) threads.emplace_back([=, this] { play_share(w, season); });
        for (std::thread &thread : threads) thread.join();
    }

    void play_share(uint32_t worker, uint32_t season) {
        for (size_t w = worker; w + 1 < players_.size(); w += options_.workers) play_part(w + 1, season);
    }

    void play_part(size_t k, uint32_t season) {
        Player &p = players_[k];
        uint64_t turn = k == 0 ? 2 * season : 2 * season + 1;
        go_in(heap_, p.seat);
        script::commands_of(script_.sections[k], season, [&](const script::Command &c) { play_command(p, turn, c); });
        retire(heap_, p.seat);
        heap_.words[kDone].fetch_add(1);
        go_out(heap_, p.seat, p.count);
    }

    // A safe point: if a stop is under way the seat gives way. Then the phase is read, and the season if it isn't known.
    void await_turn(Player &p, uint64_t turn) {
        if (heap_.words[kWorld].load() & kFlag) give_way(p);
        p.seat.phase = heap_.words[kPhase].load();
        if (p.seat.season == turn) return;
        while ((p.seat.season = heap_.words[heap_.season].load()) != turn) give_way(p);
    }

    void give_way(Player &p) {
        retire(heap_, p.seat);
        go_out(heap_, p.seat, p.count);
        go_in(heap_, p.seat);
    }

    void play_command(Player &p, uint64_t turn, const script::Command &c) {
        await_turn(p, turn);
        if (c.op == script::Op::New) {
            while (p.seat.free == 0) {
                refill(heap_, p.seat, p.count);
                await_turn(p, turn);
            }
        }
        do_command(p, c);
        p.count++;
    }

    void do_command(Player &p, const script::Command &c) {
        Seat &seat = p.seat;
        switch (c.op) {
        case script::Op::New: return create(heap_, seat, c.v, c.n);
        case script::Op::Let: return store_root(heap_, seat, c.v, seat.variables[c.w]);
        case script::Op::Nil: return store_root(heap_, seat, c.v, 0);
        case script::Op::Set: p.outcome.dropped += set(heap_, seat, c.v, c.i, c.w); return;
        case script::Op::Get: return follow(heap_, seat, c.v, c.w, c.i);
        case script::Op::Cat: return lend(heap_, seat, c.v, c.w);
        case script::Op::Put: p.outcome.dropped += put(heap_, seat, c.v, c.n); return;
        case script::Op::Say: p.outcome.said.push_back(said(seat, c)); return;
        case script::Op::Sum: p.outcome.said.push_back(walked(seat, c)); return;
        case script::Op::Collect: retire(heap_, seat); return collect(heap_, seat, p.count);
        }
    }

    text::Said said(const Seat &seat, const script::Command &c) const {
        if (seat.variables[c.v] == 0) return {text::Said::Nil, c.label, 0, 0};
        return {text::Said::Value, c.label, 0, heap_.words[heap_.values + seat.variables[c.v] - 1].load()};
    }

    text::Said walked(Seat &seat, const script::Command &c) {
        text::Said said{text::Said::Walk, c.label, 0, 0};
        walk(heap_, seat, c.v, c.i, c.n, said.count, said.total);
        return said;
    }

    // Turns of a tracer until all parts of the season are played.
    void run_tracer(uint64_t until) {
        Seat seat;
        for (; heap_.words[kDone].load() < until; std::this_thread::yield()) {
            if (!enter(heap_, seat)) {
                await_resumed_helping(heap_);
                continue;
            }
            if (heap_.words[kPhase].load() == kMarking) tend();
            heap_.words[kWorld].fetch_sub(1);
        }
    }

    // Traces 64 objects, cleans at most 1,024 cards if there is nothing to trace, and brings back what was put off.
    void tend() {
        Traced traced = trace(heap_, 64);
        uint64_t rescanned = 0, looks = 1024;
        if (traced.stopped == Stopped::NoWork) clean_next(heap_, looks, kNothing, rescanned);
        recycle_deferred(heap_);
        if (traced.done > 0) heap_.words[kTraced].fetch_add(traced.done);
    }

    const script::Script &script_;
    text::Options options_;
    Heap heap_;
    std::vector<Player> players_;
};

}  // namespace

int main(int count, char **words) {
    text::Options options = text::options_of(count, words);
    script::Script s = script::read_input();
    Play play(s, options);
    play.play();
    play.write();
    return 0;
}
