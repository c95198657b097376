/* A maker's first program in C: the faults of a script, from its tree text. README.md says how to build it.
 *
 *     check TREE [SCRIPT]
 *
 * With SCRIPT, the file that the tree text was made from, it prints for each fault `SCRIPT:line:column: message`, the
 * line of the script, and the span underlined; without, `start-end: message`. Start and end are taken for bytes of the
 * script, from 0, the end for the byte after the last: that is how compare/tree_of.py writes them.
 *
 * Lines and columns count from 1. A line ends in LF, and a CR before it is not shown. A column is a character of UTF-8,
 * and a wide one counts as one. A span over several lines is underlined to the end of its first. A span that does not
 * lie in the script is printed as if there were none.
 *
 * Exit status: 0 the text is accepted, 1 it has faults, 2 it is refused or a file cannot be read. All buffers are
 * static: nothing here needs a heap. */
#include <stdio.h>

#include "message.h"
#include "serduzhap.h"

/* The most bytes of a script that is shown: its buffer is the program's own, not the library's. */
#define LONGEST_SCRIPT 1048576

enum { ACCEPTED = 0, FAULTS = 1, REFUSED = 2 };

/* One byte more than may be: a longer text is so refused by the library, a longer script here. */
static uint8_t text[SERDUZHAP_LONGEST_TEXT + 1], script[LONGEST_SCRIPT + 1];
static uint32_t work[SERDUZHAP_WORK], records[SERDUZHAP_LONGEST_REPORT];

/* Refusals 1 to 7 in words, and first what is said to any other number: the buffers here are long enough for all. */
static const char *const refusals[] = {
    "an unexpected answer",
    "the text has over 65,536 bytes",
    "the work buffer has under 16,384 numbers",
    "the text ends, and a line is due",
    "a line after the last one that was due",
    "unknown word, wrong fields, bad name or number, or no line end",
    "a line that is not due here",
    "over 4,096 lines, depth 64 or 16 names",
};

/* Where an offset lies in the script: its line and column, and where what is shown of the line starts and ends. */
struct place {
    size_t line, column, start, end;
};

/* Reads the bytes of a file, as many as there is room for; answers whether it could be read. */
static int read_file(const char *name, uint8_t *to, size_t room, size_t *len) {
    FILE *file = fopen(name, "rb");
    int read = 0;
    if (file != NULL) {
        *len = fread(to, 1, room, file);
        read = !ferror(file);
        fclose(file);
    }
    if (!read) {
        fprintf(stderr, "%s: cannot be read\n", name);
    }
    return read;
}

/* How many characters start in a part of the script: bytes that do not continue one. */
static size_t characters(size_t from, size_t to) {
    size_t count = 0;
    for (; from < to; from++) {
        count += (script[from] & 0xc0) != 0x80;
    }
    return count;
}

/* The place of an offset that is no greater than the script's length. */
static struct place place_of(size_t offset, size_t script_len) {
    struct place at = {1, 0, 0, offset};
    for (size_t i = 0; i < offset; i++) {
        if (script[i] == '\n') {
            at.line++;
            at.start = i + 1;
        }
    }
    while (at.end < script_len && script[at.end] != '\n') {
        at.end++;
    }
    if (at.end > at.start && script[at.end - 1] == '\r') {
        at.end--;
    }
    at.column = 1 + characters(at.start, offset);
    return at;
}

/* Prints the line of a place, and below it the span underlined, at least one character of it. Tabs before it are kept,
 * so that the underline stands right whatever their width. */
static void print_line(struct place at, size_t start, size_t end) {
    size_t underlined = characters(start, end < at.end ? end : at.end);
    fwrite(script + at.start, 1, at.end - at.start, stdout);
    putchar('\n');
    for (size_t i = at.start; i < start; i++) {
        if (characters(i, i + 1) == 1) {
            putchar(script[i] == '\t' ? '\t' : ' ');
        }
    }
    putchar('^');
    for (size_t i = 1; i < underlined; i++) {
        putchar('~');
    }
    putchar('\n');
}

/* Prints a fault; script_name is null where there is no script. */
static void print_fault(const uint32_t *record, size_t text_len, const char *script_name, size_t script_len) {
    const uint32_t start = record[SERDUZHAP_AT_START], end = record[SERDUZHAP_AT_END];
    char message[MESSAGE_ROOM];
    message_of_record(text, text_len, record, message);
    if (script_name != NULL && start <= end && end <= script_len) {
        struct place at = place_of(start, script_len);
        printf("%s:%zu:%zu: %s\n", script_name, at.line, at.column, message);
        print_line(at, start, end);
    } else {
        printf("%lu-%lu: %s\n", (unsigned long)start, (unsigned long)end, message);
    }
}

/* Prints why a text is refused, with the line, which 3 to 7 have, and the number. A number that is not documented is a
 * refusal, too: it is never taken for accepted. */
static int print_refusal(const char *text_name, const uint32_t answer[SERDUZHAP_REPORT_ANSWER]) {
    const uint32_t number = answer[SERDUZHAP_AT_NUMBER];
    const char *words = refusals[number <= SERDUZHAP_OVER_LIMIT ? number : 0];
    printf("%s:", text_name);
    if (number >= SERDUZHAP_LINE_MISSING && number <= SERDUZHAP_OVER_LIMIT) {
        printf("%lu:", (unsigned long)answer[SERDUZHAP_AT_LINE]);
    }
    printf(" refused: %s (%lu)\n", words, (unsigned long)number);
    return REFUSED;
}

/* Reports once, and prints each fault from its record. */
static int check(const char *text_name, size_t text_len, const char *script_name, size_t script_len) {
    uint32_t answer[SERDUZHAP_REPORT_ANSWER];
    serduzhap_report(text, text_len, work, SERDUZHAP_WORK, records, SERDUZHAP_LONGEST_REPORT, answer);
    if (answer[SERDUZHAP_AT_NUMBER] != SERDUZHAP_WRITTEN) {
        return print_refusal(text_name, answer);
    }
    for (size_t i = 0; i < answer[SERDUZHAP_AT_COUNT]; i++) {
        print_fault(records + SERDUZHAP_RECORD * i, text_len, script_name, script_len);
    }
    if (answer[SERDUZHAP_AT_COUNT] > 0) {
        return FAULTS;
    }
    printf("%s: accepted\n", text_name);
    return ACCEPTED;
}

/* Whether the library that is linked is one that the header is of. */
static int right_library(void) {
    uint32_t version[SERDUZHAP_VERSION_ANSWER];
    serduzhap_version(version);
    if (version[0] != SERDUZHAP_VERSION_MAJOR) {
        fprintf(stderr, "the library has another version than the header\n");
    }
    return version[0] == SERDUZHAP_VERSION_MAJOR;
}

int main(int count, char **words) {
    const char *script_name = count == 3 ? words[2] : NULL;
    size_t text_len = 0, script_len = 0;
    if (count != 2 && count != 3) {
        fprintf(stderr, "usage: check TREE [SCRIPT]\n");
        return REFUSED;
    }
    if (!right_library() || !read_file(words[1], text, sizeof text, &text_len)) {
        return REFUSED;
    }
    if (script_name != NULL && !read_file(script_name, script, sizeof script, &script_len)) {
        return REFUSED;
    }
    if (script_len > LONGEST_SCRIPT) {
        fprintf(stderr, "%s: over %d bytes\n", script_name, LONGEST_SCRIPT);
        return REFUSED;
    }
    return check(words[1], text_len, script_name, script_len);
}
