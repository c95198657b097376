// A maker's first program in C++17: the faults of a script, from its tree text. README.md says how to build it.
//
//     check TREE [SCRIPT]
//
// It prints what examples/check.c prints, where spans, lines and columns are explained.
// Exit status: 0 the text is accepted, 1 it has faults, 2 it is refused or a file cannot be read.
#include <algorithm>
#include <array>
#include <cstddef>
#include <fstream>
#include <iostream>
#include <optional>
#include <string>
#include <string_view>
#include <utility>
#include <variant>
#include <vector>

#include "serduzhap.hpp"

namespace {

enum Status { ACCEPTED = 0, FAULTS = 1, REFUSED = 2 };

// The script: its file's name and its bytes.
struct Script {
    std::string_view name;
    std::string bytes;
};

// Where a span lies in the script: the number and the text of its first line, what of the line stands before the span,
// and the part that is in it.
struct Place {
    std::size_t line;
    std::string_view text, before, part;
};

// The bytes of a file; none where it cannot be read.
std::optional<std::string> read_file(const char *name) {
    std::ifstream file(name, std::ios::binary);
    std::string bytes;
    std::array<char, 4096> part;
    while (file.read(part.data(), part.size()), file.gcount() > 0) {
        bytes.append(part.data(), static_cast<std::size_t>(file.gcount()));
    }
    if (!file.is_open() || file.bad()) {
        std::cerr << name << ": cannot be read\n";
        return std::nullopt;
    }
    return bytes;
}

// Whether a character of UTF-8 starts with this byte.
bool starts_character(char byte) {
    return (static_cast<unsigned char>(byte) & 0xc0) != 0x80;
}

std::size_t characters(std::string_view part) {
    return static_cast<std::size_t>(std::count_if(part.begin(), part.end(), starts_character));
}

// The place of a span that lies in the script. A line ends in LF, and a CR before it is not shown.
Place place_of(std::string_view script, std::size_t start, std::size_t end) {
    const auto above = script.substr(0, start);
    const auto line_start = above.rfind('\n') + 1; // 0 where there is no LF
    auto text = script.substr(line_start, script.find('\n', start) - line_start);
    if (!text.empty() && text.back() == '\r') {
        text.remove_suffix(1);
    }
    const auto part_end = std::max(start, std::min(end, line_start + text.size()));
    const auto line = 1 + static_cast<std::size_t>(std::count(above.begin(), above.end(), '\n'));
    return {line, text, above.substr(line_start), script.substr(start, part_end - start)};
}

// Blanks as wide as what stands before an underline: tabs are kept.
std::string blanks(std::string_view before) {
    std::string blanks;
    for (const char byte : before) {
        if (starts_character(byte)) {
            blanks += byte == '\t' ? '\t' : ' ';
        }
    }
    return blanks;
}

// The underline of a part, at least one character of it.
std::string underline(std::string_view part) {
    return '^' + std::string(std::max<std::size_t>(characters(part), 1) - 1, '~');
}

void print_fault(const serduzhap::Fault &fault, const std::optional<Script> &script) {
    const auto message = serduzhap::message(fault);
    if (!script || fault.start > fault.end || fault.end > script->bytes.size()) {
        std::cout << fault.start << '-' << fault.end << ": " << message << '\n';
        return;
    }
    const auto at = place_of(script->bytes, fault.start, fault.end);
    std::cout << script->name << ':' << at.line << ':' << characters(at.before) + 1 << ": " << message << '\n'
              << at.text << '\n'
              << blanks(at.before) << underline(at.part) << '\n';
}

Status print_refusal(std::string_view text_name, const serduzhap::Refusal &refusal) {
    std::cout << text_name << ':';
    if (refusal.line != 0) {
        std::cout << refusal.line << ':';
    }
    std::cout << " refused: " << serduzhap::words(refusal) << " (" << refusal.number << ")\n";
    return REFUSED;
}

// Reports once, and prints each fault.
Status check(std::string_view text_name, std::string_view text, const std::optional<Script> &script) {
    serduzhap::Checker checker;
    const auto report = checker.report(text);
    if (const auto *refusal = std::get_if<serduzhap::Refusal>(&report)) {
        return print_refusal(text_name, *refusal);
    }
    const auto &faults = std::get<std::vector<serduzhap::Fault>>(report);
    for (const auto &fault : faults) {
        print_fault(fault, script);
    }
    if (!faults.empty()) {
        return FAULTS;
    }
    std::cout << text_name << ": accepted\n";
    return ACCEPTED;
}

} // namespace

int main(int count, char **words) {
    if (count != 2 && count != 3) {
        std::cerr << "usage: check TREE [SCRIPT]\n";
        return REFUSED;
    }
    if (!serduzhap::right_library()) {
        std::cerr << "the library has another version than the header\n";
        return REFUSED;
    }
    const auto text = read_file(words[1]);
    if (!text) {
        return REFUSED;
    }
    std::optional<Script> script;
    if (count == 3) {
        auto bytes = read_file(words[2]);
        if (!bytes) {
            return REFUSED;
        }
        script = Script{words[2], std::move(*bytes)};
    }
    return check(words[1], *text, script);
}
