// Reads a script once into compact lists of commands, so that no peer reads text while it plays. docs/SCRIPTS.md has the language, versions 1 to 3.
// A script with a fault isn't told from one without: the peers play only scripts that the program has played.
#pragma once
#include <cstdint>
#include <cstdio>
#include <cstdlib>
#include <map>
#include <string>
#include <string_view>
#include <vector>

namespace script {

enum class Op : uint8_t { New, Let, Nil, Set, Get, Cat, Put, Say, Sum, Collect };

// A command: variables v and w, field i, a value or a limit n, and the number of its label.
struct Command {
    Op op;
    uint8_t v, w, i;
    uint32_t n, label;
};

// Commands that are done so many times.
struct Block {
    uint32_t times;
    std::vector<Command> body;
};

// What a section does in one season.
using Part = std::vector<Block>;

struct Section {
    std::vector<Part> parts{1};
    std::map<std::string_view, uint8_t> names;

    uint8_t variable(std::string_view name) { return names.emplace(name, names.size()).first->second; }
    uint64_t count(bool only_new) const {
        uint64_t sum = 0;
        for (const Part &part : parts) {
            for (const Block &block : part) {
                for (const Command &c : block.body) sum += !only_new || c.op == Op::New ? block.times : 0;
            }
        }
        return sum;
    }
};

// Section 0 is the catalogue, also if the script has none.
struct Script {
    std::string source;
    uint32_t fields = 4, seasons = 1;
    bool has_catalogue = false;
    std::vector<Section> sections{1};
    std::vector<std::string_view> labels;
};

// The words of a line, none if it is a comment.
inline std::vector<std::string_view> words_of(std::string_view line) {
    std::vector<std::string_view> words;
    for (size_t at = 0; at < line.size();) {
        size_t end = std::min(line.find(' ', at), line.size());
        if (end > at) words.push_back(line.substr(at, end - at));
        at = end + 1;
    }
    if (!words.empty() && words[0][0] == '#') words.clear();
    return words;
}

inline uint32_t number_of(std::string_view word) { return strtoul(std::string(word).c_str(), nullptr, 10); }

// A command of a section. A variable gets its number if it is first written, and the catalogue's names are looked up in the catalogue.
inline Command command_of(Script &s, Section &in, const std::vector<std::string_view> &words) {
    auto variable = [&](size_t k) { return in.variable(words[k]); };
    auto field = [&](size_t k) { return static_cast<uint8_t>(number_of(words[k])); };
    auto label = [&](size_t k) {
        s.labels.push_back(words[k]);
        return static_cast<uint32_t>(s.labels.size() - 1);
    };
    std::string_view name = words[0];
    if (name == "new") return {Op::New, variable(1), 0, 0, number_of(words[2]), 0};
    if (name == "let") return {Op::Let, variable(1), variable(2), 0, 0, 0};
    if (name == "nil") return {Op::Nil, variable(1), 0, 0, 0, 0};
    if (name == "set") return {Op::Set, variable(1), variable(3), field(2), 0, 0};
    if (name == "get") return {Op::Get, variable(1), variable(2), field(3), 0, 0};
    if (name == "cat") return {Op::Cat, variable(1), s.sections[0].variable(words[2]), 0, 0, 0};
    if (name == "put") return {Op::Put, variable(1), 0, 0, number_of(words[2]), 0};
    if (name == "say") return {Op::Say, variable(2), 0, 0, 0, label(1)};
    if (name == "sum") return {Op::Sum, variable(2), 0, field(3), number_of(words[4]), label(1)};
    if (name == "collect") return {Op::Collect, 0, 0, 0, 0, 0};
    fprintf(stderr, "not a command: %s\n", std::string(name).c_str());
    exit(2);
}

// A line of a section that is no header. Between repeats the commands of a part stand in blocks that are done once.
inline void read_line(Script &s, bool &repeating, const std::vector<std::string_view> &words) {
    if (words[0] == "catalogue") {
        s.has_catalogue = true;
    } else if (words[0] == "warehouse") {
        s.sections.emplace_back();
    } else if (words[0] == "season") {
        s.sections.back().parts.emplace_back();
    } else if (words[0] == "repeat") {
        s.sections.back().parts.back().push_back({number_of(words[1]), {}});
        repeating = true;
    } else if (words[0] == "end") {
        s.sections.back().parts.back().push_back({1, {}});
        repeating = false;
    } else {
        Part &part = s.sections.back().parts.back();
        if (part.empty()) part.push_back({1, {}});
        part.back().body.push_back(command_of(s, s.sections.back(), words));
    }
}

inline Script read(std::string source) {
    Script s;
    s.source = std::move(source);
    bool repeating = false, header = false;
    std::string_view rest = s.source;
    while (!rest.empty()) {
        size_t end = std::min(rest.find('\n'), rest.size());
        std::vector<std::string_view> words = words_of(rest.substr(0, end));
        rest.remove_prefix(std::min(end + 1, rest.size()));
        if (words.empty()) continue;
        if (!header) {
            header = true;
        } else if (words[0] == "fields") {
            s.fields = number_of(words[1]);
        } else {
            read_line(s, repeating, words);
        }
    }
    for (const Section &section : s.sections) s.seasons = std::max<uint32_t>(s.seasons, section.parts.size());
    return s;
}

inline Script read_input() {
    std::string source;
    char buffer[65536];
    for (size_t n; (n = fread(buffer, 1, sizeof buffer, stdin)) > 0;) source.append(buffer, n);
    return read(std::move(source));
}

// Does what `each` says for each command of a section in a season, counted from 0.
template <class Each>
inline void commands_of(const Section &section, uint32_t season, Each each) {
    if (season >= section.parts.size()) return;
    for (const Block &block : section.parts[season]) {
        for (uint32_t time = 0; time < block.times; time++) {
            for (const Command &command : block.body) each(command);
        }
    }
}

}  // namespace script
