// Sessions for the yardsticks in C++: LOAD, a network text, END, TREE, and so on up to BYE.
#pragma once

#include <algorithm>
#include <charconv>
#include <cstdint>
#include <stdexcept>
#include <string>
#include <string_view>
#include <vector>

#include <unistd.h>

// A link between two routers, which carries up to `capacity` units in either direction.
struct Link {
    uint32_t a;
    uint32_t b;
    uint64_t capacity;
};

// Routers are numbered as they first appear.
struct Network {
    std::vector<std::string_view> names;
    std::vector<Link> links;

    uint32_t routers() const { return names.size(); }
};

// For each router but the first the one above it, and the width of the edge between the two.
struct Tree {
    std::vector<uint32_t> up;
    std::vector<uint64_t> width;

    explicit Tree(uint32_t routers) : up(routers), width(routers) {}
};

// The network with links that join the same two routers merged, and without those from a router to
// itself, the smaller end first.
inline Network simplified(const Network &network) {
    Network simple{network.names, {}};
    for (const Link &link : network.links) {
        if (link.a != link.b) {
            simple.links.push_back({std::min(link.a, link.b), std::max(link.a, link.b), link.capacity});
        }
    }
    std::sort(simple.links.begin(), simple.links.end(), [](const Link &one, const Link &other) {
        return one.a != other.a ? one.a < other.a : one.b < other.b;
    });
    size_t count = 0;
    for (const Link &link : simple.links) {
        if (count > 0 && simple.links[count - 1].a == link.a && simple.links[count - 1].b == link.b) {
            simple.links[count - 1].capacity += link.capacity;
        } else {
            simple.links[count++] = link;
        }
    }
    simple.links.resize(count);
    return simple;
}

// Numbers names from 0 on, in a table with open addresses. It takes at most 1,024.
class NameTable {
  public:
    uint32_t number_of(std::string_view name, std::vector<std::string_view> &names) {
        uint64_t hash = 0xcbf29ce484222325;
        for (unsigned char byte : name) {
            hash = (hash ^ byte) * 0x100000001b3;
        }
        for (size_t at = hash % slots.size();; at = (at + 1) % slots.size()) {
            if (slots[at] == 0) {
                if (names.size() == 1024) {
                    throw std::runtime_error("too many routers");
                }
                names.push_back(name);
                slots[at] = names.size();
                return names.size() - 1;
            }
            if (names[slots[at] - 1] == name) {
                return slots[at] - 1;
            }
        }
    }

  private:
    std::vector<uint32_t> slots = std::vector<uint32_t>(4096);
};

// The words of a text, one after another.
class WordReader {
  public:
    explicit WordReader(std::string_view text) : at(text.data()), end(at + text.size()) {}

    // The next word, or an empty one at the end.
    std::string_view word() {
        while (at < end && is_blank(*at)) {
            at++;
        }
        const char *begin = at;
        while (at < end && !is_blank(*at)) {
            at++;
        }
        return {begin, static_cast<size_t>(at - begin)};
    }

    uint64_t number() {
        std::string_view digits = word();
        uint64_t value;
        auto [rest, error] = std::from_chars(digits.data(), digits.data() + digits.size(), value);
        if (error != std::errc() || rest != digits.data() + digits.size()) {
            throw std::runtime_error("not a number");
        }
        return value;
    }

  private:
    const char *at;
    const char *end;

    static bool is_blank(char byte) { return byte == ' ' || byte == '\t' || byte == '\n'; }
};

// The network of a text that is right and has no remarks, up to its END.
inline Network read_network(WordReader &words) {
    Network network;
    NameTable table;
    for (std::string_view word = words.word(); word != "END"; word = words.word()) {
        if (word == "link") {
            uint32_t a = table.number_of(words.word(), network.names);
            uint32_t b = table.number_of(words.word(), network.names);
            network.links.push_back({a, b, words.number()});
        } else if (word == "router") {
            table.number_of(words.word(), network.names);
        } else {
            throw std::runtime_error("not a network text");
        }
    }
    return network;
}

// All that the standard input has.
inline std::string read_all() {
    std::string text;
    size_t known = 0;
    for (;;) {
        text.resize(known + (1 << 20));
        ssize_t size = read(0, &text[known], text.size() - known);
        if (size < 0) {
            throw std::runtime_error("the input can't be read");
        }
        if (size == 0) {
            text.resize(known);
            return text;
        }
        known += size;
    }
}

// Writes a text to the standard output.
inline void write_all(std::string_view text) {
    while (!text.empty()) {
        ssize_t size = write(1, text.data(), text.size());
        if (size <= 0) {
            throw std::runtime_error("the output can't be written");
        }
        text.remove_prefix(size);
    }
}

// The lines of a tree: for each router but the first its name, that of the one above it, and the width.
inline std::string tree_lines(const Network &network, const Tree &tree) {
    std::string lines;
    char digits[20];
    for (uint32_t router = 1; router < network.routers(); router++) {
        char *end = std::to_chars(digits, digits + sizeof digits, tree.width[router]).ptr;
        lines.append(network.names[router]).append(" ");
        lines.append(network.names[tree.up[router]]).append(" ");
        lines.append(digits, end).append("\n");
    }
    return lines;
}

// Answers the session on the standard input: each TREE by the tree that `grow` makes of the network
// before it. Without a TREE a network has no tree made.
template <typename Grow>
void answer_session(Grow grow) {
    std::string text = read_all();
    WordReader words(text);
    Network network;
    for (std::string_view word = words.word(); !word.empty() && word != "BYE"; word = words.word()) {
        if (word == "LOAD") {
            network = read_network(words);
        } else if (word == "TREE") {
            write_all(tree_lines(network, grow(network)));
        } else {
            throw std::runtime_error("not a session of LOAD and TREE");
        }
    }
}
