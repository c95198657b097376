/* The message of a fault, built from its record: the words of docs/FORMAT.md, with the names as parts of the tree
 * text. One report is enough for the messages of all faults, where serduzhap_message does the whole check for each.
 * examples/same_messages.c holds what is built here against what that call writes.
 *
 * To be put into a maker's own program: C99 or later, no heap. */
#ifndef MESSAGE_H
#define MESSAGE_H

#include <stddef.h>
#include <string.h>

#include "serduzhap.h"

/* Room for any message and the 0 at its end. */
#define MESSAGE_ROOM (SERDUZHAP_LONGEST_MESSAGE + 1)

/* The words of kinds 8 to 15: before the name, after it, and after the class name. An absent name is empty. */
static const char *const message_words[][3] = {
    {"Undefined variable: ", "", ""},
    {"Undefined function: ", "", ""},
    {"Undefined variable '", "' captured by lambda", ""},
    {"Unbound local variable: ", "", ""},
    {"Unbound local function: ", "", ""},
    {"Unbound local variable '", "' captured by lambda", ""},
    {"Invalid assignment target: cannot assign to literal, call, or expression", "", ""},
    {"Method '", "' in class '", "' must have 'self' as first parameter"},
};

/* Whether offset and length are those of a name in the text; where none is due, whether they are those of none. */
static inline int message_is_name(int due, uint64_t text_len, uint32_t offset, uint32_t len) {
    return due ? 0 < len && len <= SERDUZHAP_LONGEST_NAME && (uint64_t)offset + len <= text_len
               : offset == 0 && len == 0;
}

/* Whether seven numbers are a record over the text: then its message has at most SERDUZHAP_LONGEST_MESSAGE bytes. */
static inline int message_is_record(uint64_t text_len, const uint32_t record[SERDUZHAP_RECORD]) {
    const uint32_t kind = record[SERDUZHAP_AT_KIND];
    return kind >= SERDUZHAP_UNDEFINED_VARIABLE && kind <= SERDUZHAP_METHOD_WITHOUT_SELF &&
           message_is_name(kind != SERDUZHAP_INVALID_TARGET, text_len, record[SERDUZHAP_AT_NAME],
                           record[SERDUZHAP_AT_NAME_LEN]) &&
           message_is_name(kind == SERDUZHAP_METHOD_WITHOUT_SELF, text_len, record[SERDUZHAP_AT_CLASS],
                           record[SERDUZHAP_AT_CLASS_LEN]);
}

/* Puts bytes to the end of a message, and answers where the next ones go. */
static inline char *message_put(char *to, const void *bytes, size_t len) {
    memcpy(to, bytes, len);
    return to + len;
}

/* Writes the message of a record and a 0; the text is the one that was reported on. Answers with the message's length,
 * and with 0, an empty message, where these numbers are no record over the text. */
static inline size_t message_of_record(const uint8_t *text, uint64_t text_len,
                                       const uint32_t record[SERDUZHAP_RECORD], char out[MESSAGE_ROOM]) {
    char *to = out;

    if (message_is_record(text_len, record)) {
        const char *const *words = message_words[record[SERDUZHAP_AT_KIND] - SERDUZHAP_UNDEFINED_VARIABLE];
        to = message_put(to, words[0], strlen(words[0]));
        to = message_put(to, text + record[SERDUZHAP_AT_NAME], record[SERDUZHAP_AT_NAME_LEN]);
        to = message_put(to, words[1], strlen(words[1]));
        to = message_put(to, text + record[SERDUZHAP_AT_CLASS], record[SERDUZHAP_AT_CLASS_LEN]);
        to = message_put(to, words[2], strlen(words[2]));
    }
    *to = 0;
    return (size_t)(to - out);
}

#endif
