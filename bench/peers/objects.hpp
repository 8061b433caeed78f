// An interpreter of scripts over objects that a given allocator makes: the peers that aren't made of the heap's words.
#pragma once
#include <cstdint>
#include <thread>
#include <vector>

#include "script.hpp"
#include "text.hpp"

namespace objects {

// An object: its section, its number there, its value, and as many fields as the script says.
struct Object {
    uint32_t section, number, value, reached;
    Object *fields[];
};

// What a section has: its variables, and what it came to. The variables lie where the allocator wants them, since a collector has to find them.
struct Player {
    Object **variables;
    uint32_t made = 0;
    text::Outcome outcome;
};

template <class Allocator>
class Interpreter {
  public:
    explicit Interpreter(const script::Script &s) : script_(s) {
        for (size_t k = 0; k < s.sections.size(); k++) players_.push_back({Allocator::variables(), 0, {}});
    }

    // Season by season the catalogue's part and then the warehouses', each worker its share.
    void play(uint32_t workers) {
        for (uint32_t season = 0; season < script_.seasons; season++) {
            play_part(0, season);
            std::vector<std::thread> threads;
            for (uint32_t w = 0; w < workers; w++) {
                threads.emplace_back([=, this] { Allocator::in_thread([=, this] { play_share(w, workers, season); }); });
            }
            for (std::thread &thread : threads) thread.join();
        }
    }

    void write() {
        std::vector<text::Outcome> outcomes;
        for (Player &player : players_) outcomes.push_back(std::move(player.outcome));
        std::vector<text::Survivor> survivors = reachable();
        text::write(script_, outcomes, survivors);
    }

  private:
    void play_share(uint32_t worker, uint32_t workers, uint32_t season) {
        for (size_t w = worker; w + 1 < players_.size(); w += workers) play_part(w + 1, season);
    }

    void play_part(size_t k, uint32_t season) {
        typename Allocator::Room room(script_.fields);
        script::commands_of(script_.sections[k], season, [&](const script::Command &c) { play_command(k, players_[k], room, c); });
    }

    void make(size_t k, Player &p, typename Allocator::Room &room, const script::Command &c) {
        Object *object = room.make();
        *object = {static_cast<uint32_t>(k), p.made++, c.n, 0};
        for (uint32_t f = 0; f < script_.fields; f++) object->fields[f] = nullptr;
        p.variables[c.v] = object;
    }

    // A store is dropped if the object is the catalogue's.
    template <class Store>
    void store(size_t k, Player &p, Object *object, Store into) {
        if (object == nullptr) return;
        if (object->section != k) {
            p.outcome.dropped++;
            return;
        }
        into(object);
        Allocator::stored(object);
    }

    void play_command(size_t k, Player &p, typename Allocator::Room &room, const script::Command &c) {
        Object **at = p.variables;
        switch (c.op) {
        case script::Op::New: return make(k, p, room, c);
        case script::Op::Let: at[c.v] = at[c.w]; return;
        case script::Op::Nil: at[c.v] = nullptr; return;
        case script::Op::Set: return store(k, p, at[c.v], [&](Object *o) { o->fields[c.i] = at[c.w]; });
        case script::Op::Get: at[c.v] = at[c.w] == nullptr ? nullptr : at[c.w]->fields[c.i]; return;
        case script::Op::Cat: at[c.v] = players_[0].variables[c.w]; return;
        case script::Op::Put: return store(k, p, at[c.v], [&](Object *o) { o->value = c.n; });
        case script::Op::Say: p.outcome.said.push_back(said(c, at[c.v])); return;
        case script::Op::Sum: p.outcome.said.push_back(walked(c, at[c.v])); return;
        case script::Op::Collect: Allocator::collect(); return;
        }
    }

    text::Said said(const script::Command &c, const Object *object) {
        if (object == nullptr) return {text::Said::Nil, c.label, 0, 0};
        return {text::Said::Value, c.label, 0, object->value};
    }

    text::Said walked(const script::Command &c, const Object *object) {
        uint64_t count = 0, total = 0;
        for (; object != nullptr && count < c.n; count++) {
            total += object->value;
            object = object->fields[c.i];
        }
        return {text::Said::Walk, c.label, count, total};
    }

    void reach(std::vector<Object *> &waiting, Object *object) {
        if (object == nullptr || object->reached) return;
        object->reached = 1;
        waiting.push_back(object);
    }

    std::vector<text::Survivor> reachable() {
        std::vector<text::Survivor> survivors;
        std::vector<Object *> waiting;
        for (const Player &player : players_) {
            for (size_t v = 0; v < 32; v++) reach(waiting, player.variables[v]);
        }
        while (!waiting.empty()) {
            Object *object = waiting.back();
            waiting.pop_back();
            survivors.emplace_back(object->section, object->number, object->value);
            for (uint32_t f = 0; f < script_.fields; f++) reach(waiting, object->fields[f]);
        }
        return survivors;
    }

    const script::Script &script_;
    std::vector<Player> players_;
};

template <class Allocator>
int play_input(int count, char **words) {
    text::Options options = text::options_of(count, words);
    script::Script s = script::read_input();
    Interpreter<Allocator> interpreter(s);
    interpreter.play(options.workers);
    interpreter.write();
    return 0;
}

}  // namespace objects
