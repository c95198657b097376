// The report as C++17 has it: a text in, the faults or a refusal out. A small wrapper around include/serduzhap.h, to
// be put into a maker's own program and added to.
#ifndef SERDUZHAP_HPP
#define SERDUZHAP_HPP

#include <array>
#include <cstddef>
#include <cstdint>
#include <string>
#include <string_view>
#include <variant>
#include <vector>

#include "serduzhap.h"

namespace serduzhap {

// A fault: its kind, 8 to 15, its span in the script, and its names, which are parts of the text that was checked.
// An absent name is empty.
struct Fault {
    std::uint32_t kind, start, end;
    std::string_view name, class_name;
};

// Why there is no report: the number, and the line for 3 to 7, else 0. Numbers that are not documented come here, too:
// no answer but SERDUZHAP_WRITTEN becomes a report.
struct Refusal {
    std::uint32_t number, line;
};

using Report = std::variant<std::vector<Fault>, Refusal>;

// Buffers for any text, to be used again. Each thread needs its own.
class Checker {
public:
    // All faults, in order. Their names are parts of the text, which has to outlive them.
    Report report(std::string_view text) {
        std::array<std::uint32_t, SERDUZHAP_REPORT_ANSWER> answer{};
        serduzhap_report(reinterpret_cast<const std::uint8_t *>(text.data()), text.size(), work_.data(), work_.size(),
                         records_.data(), records_.size(), answer.data());
        const auto number = answer[SERDUZHAP_AT_NUMBER];
        if (number != SERDUZHAP_WRITTEN) {
            const bool has_line = number >= SERDUZHAP_LINE_MISSING && number <= SERDUZHAP_OVER_LIMIT;
            return Refusal{number, has_line ? answer[SERDUZHAP_AT_LINE] : 0};
        }
        std::vector<Fault> faults;
        faults.reserve(answer[SERDUZHAP_AT_COUNT]);
        for (std::size_t i = 0; i < answer[SERDUZHAP_AT_COUNT]; i++) {
            faults.push_back(fault(text, records_.data() + SERDUZHAP_RECORD * i));
        }
        return faults;
    }

private:
    static Fault fault(std::string_view text, const std::uint32_t *record) {
        return {record[SERDUZHAP_AT_KIND], record[SERDUZHAP_AT_START], record[SERDUZHAP_AT_END],
                text.substr(record[SERDUZHAP_AT_NAME], record[SERDUZHAP_AT_NAME_LEN]),
                text.substr(record[SERDUZHAP_AT_CLASS], record[SERDUZHAP_AT_CLASS_LEN])};
    }

    std::vector<std::uint32_t> work_ = std::vector<std::uint32_t>(SERDUZHAP_WORK);
    std::vector<std::uint32_t> records_ = std::vector<std::uint32_t>(SERDUZHAP_LONGEST_REPORT);
};

// The message of a fault in the words of docs/FORMAT.md, as serduzhap_message writes it.
inline std::string message(const Fault &fault) {
    const std::string name(fault.name);
    switch (fault.kind) {
    case SERDUZHAP_UNDEFINED_VARIABLE:
        return "Undefined variable: " + name;
    case SERDUZHAP_UNDEFINED_FUNCTION:
        return "Undefined function: " + name;
    case SERDUZHAP_UNDEFINED_CAPTURE:
        return "Undefined variable '" + name + "' captured by lambda";
    case SERDUZHAP_UNBOUND_VARIABLE:
        return "Unbound local variable: " + name;
    case SERDUZHAP_UNBOUND_FUNCTION:
        return "Unbound local function: " + name;
    case SERDUZHAP_UNBOUND_CAPTURE:
        return "Unbound local variable '" + name + "' captured by lambda";
    case SERDUZHAP_INVALID_TARGET:
        return "Invalid assignment target: cannot assign to literal, call, or expression";
    case SERDUZHAP_METHOD_WITHOUT_SELF:
        return "Method '" + name + "' in class '" + std::string(fault.class_name) +
               "' must have 'self' as first parameter";
    default:
        return "";
    }
}

// A refusal in words; what is said to a number that is none of 1 to 7 stands last.
inline std::string_view words(const Refusal &refusal) {
    switch (refusal.number) {
    case SERDUZHAP_TEXT_TOO_LONG:
        return "the text has over 65,536 bytes";
    case SERDUZHAP_WORK_TOO_SHORT:
        return "the work buffer has under 16,384 numbers";
    case SERDUZHAP_LINE_MISSING:
        return "the text ends, and a line is due";
    case SERDUZHAP_LINE_LEFT:
        return "a line after the last one that was due";
    case SERDUZHAP_MALFORMED:
        return "unknown word, wrong fields, bad name or number, or no line end";
    case SERDUZHAP_NOT_DUE:
        return "a line that is not due here";
    case SERDUZHAP_OVER_LIMIT:
        return "over 4,096 lines, depth 64 or 16 names";
    default:
        return "an unexpected answer";
    }
}

// Whether the library that is linked is one that the header is of.
inline bool right_library() {
    std::array<std::uint32_t, SERDUZHAP_VERSION_ANSWER> version{};
    serduzhap_version(version.data());
    return version[0] == SERDUZHAP_VERSION_MAJOR;
}

} // namespace serduzhap

#endif
