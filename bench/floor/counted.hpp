// A word that counts the steps on it, for the build of the floor that tells how many loads, stores and fetches a play takes.
#pragma once
#include <atomic>
#include <cstdint>

namespace bare {

struct Steps {
    std::atomic<uint64_t> loads{0}, stores{0}, fetches{0};
};
inline Steps steps;

class CountedWord {
  public:
    CountedWord() = default;
    CountedWord &operator=(uint64_t to) {
        word_ = to;
        return *this;
    }
    void operator|=(uint64_t bits) { word_ |= bits; }

    uint64_t load(std::memory_order order = std::memory_order_seq_cst) const {
        count(steps.loads);
        return word_.load(order);
    }
    void store(uint64_t to) {
        count(steps.stores);
        word_.store(to);
    }
    uint64_t exchange(uint64_t to) { return count(steps.fetches), word_.exchange(to); }
    uint64_t fetch_add(uint64_t by) { return count(steps.fetches), word_.fetch_add(by); }
    uint64_t fetch_sub(uint64_t by) { return count(steps.fetches), word_.fetch_sub(by); }
    uint64_t fetch_and(uint64_t by) { return count(steps.fetches), word_.fetch_and(by); }
    uint64_t fetch_or(uint64_t by) { return count(steps.fetches), word_.fetch_or(by); }
    bool compare_exchange_strong(uint64_t &from, uint64_t to) { return count(steps.fetches), word_.compare_exchange_strong(from, to); }

  private:
    static void count(std::atomic<uint64_t> &kind) { kind.fetch_add(1, std::memory_order_relaxed); }
    std::atomic<uint64_t> word_{0};
};

}  // namespace bare
