/*
 * A symbol table that lets go, without exceptions. A symbol is an object; the table beside the heap has its text and a weak reference to it. A symbol that
 * somebody keeps is found again as the same object, and one that nobody keeps leaves the table with its text, once a cycle has ended.
 *
 * Each text is told by `pressure`, so that a collection comes with each MOST bytes of new texts, though the heap has cells for all symbols. So the table never
 * holds much more than MOST bytes of texts that nobody needs.
 */
#include "test.hpp"
#include <string>
#include <unordered_map>
#include <vector>

enum : uint32_t { symbols = 20000, kept_each = 100, bytes = 1000, most = 1000000, cells = 65536 };

class table {
public:
    explicit table(mh::mutator &m) : m_(m) {}

    /* The symbol of this text, an old one or a new one. */
    mh::status intern(const std::string &text, mh::local &out) {
        auto at = weaks_.find(text);
        mh::status s = at == weaks_.end() ? mh::status::dead : m_.upgrade(at->second, out);
        if (s != mh::status::dead) return s;
        if ((s = m_.make(out, static_cast<uint32_t>(text.size()))) == mh::status::ok) s = out.weak(weaks_[text]);
        if (s == mh::status::ok) s = m_.pressure(text.size());
        return s == mh::status::ok ? sweep() : s;
    }
    size_t size() const { return weaks_.size(); }

    /* Drops the texts of dead symbols, if a cycle has ended since that was done last. */
    mh::status sweep() {
        uint64_t cycles = 0;
        mh::status s = m_.cycles(cycles);
        if (s != mh::status::ok || cycles == seen_) return s;
        seen_ = cycles;
        for (auto at = weaks_.begin(); at != weaks_.end();) {
            mh::local symbol;
            s = m_.upgrade(at->second, symbol);
            if (s == mh::status::dead) at = weaks_.erase(at);
            else if (s == mh::status::ok) ++at;
            else return s;
        }
        return mh::status::ok;
    }

private:
    mh::mutator &m_;
    std::unordered_map<std::string, mh_weak> weaks_;
    uint64_t seen_ = 0;
};

static std::string text_of(uint32_t k) {
    std::string number = std::to_string(k);
    return number + std::string(bytes - number.size(), '.');
}

/* The kept symbols are found again, as the same objects. */
static void look(table &all, const std::vector<mh::kept> &held) {
    for (uint32_t k = 0; k < held.size(); k++) {
        mh::local old, found;
        bool is_same = false;
        done(held[k].get(old), "a kept symbol");
        done(all.intern(text_of(k * kept_each), found), "a symbol found");
        done(old.same(found, is_same), "whether two are one");
        expect(is_same, true, "whether a kept symbol is found");
    }
}

static size_t fill(table &all, std::vector<mh::kept> &held) {
    size_t largest = 0;
    for (uint32_t k = 0; k < symbols; k++) {
        mh::local symbol;
        done(all.intern(text_of(k), symbol), "a new symbol");
        if (k % kept_each == 0) {
            held.emplace_back();
            done(held.back().keep(symbol), "a symbol into a slot");
        }
        if (all.size() > largest) largest = all.size();
    }
    return largest;
}

int main() {
    mh::world world;
    mh::mutator m;
    uint32_t percent = 0;
    done(world.open(sizes_of(cells, 1, 1, 0, symbols / kept_each)), "a world");
    expect(world.percent_kept(percent), mh::status::not_yet, "how full it is before a cycle");
    done(world.limit_pressure(most), "the limit");
    done(world.take(m), "a mutator");
    mh::inside in(m);
    done(in.entered(), "the mutator");
    table all(m);
    std::vector<mh::kept> held;
    expect(fill(all, held) <= symbols / kept_each + 2 * most / bytes, true, "whether the table stays small");
    done(m.collect(), "a collection");
    done(all.sweep(), "the table's sweep");
    expect(all.size(), held.size(), "symbols that are kept");
    done(world.percent_kept(percent), "how full it is");
    expect(percent, (100 * (symbols / kept_each + 1) + cells - 1) / cells, "how full it is"); /* the root object besides */
    look(all, held);
    held.clear();
    done(m.collect(), "a collection");
    done(all.sweep(), "the table's sweep");
    expect(all.size(), 0, "symbols that nobody keeps");
    std::printf("symbols: %u symbols with %u bytes each, and texts that nobody needed went with each %u bytes\n", uint32_t{symbols}, uint32_t{bytes}, uint32_t{most});
    return 0;
}
