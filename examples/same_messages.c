/* Whether the messages that message.h builds from records are those that serduzhap_message writes, byte for byte.
 *
 *     same_messages TREE..
 *
 * Prints how many were compared; exit status 1 where one differs, 2 where a file cannot be read. examples/run runs it
 * over many texts. */
#include <stdio.h>

#include "message.h"
#include "serduzhap.h"

static uint8_t text[SERDUZHAP_LONGEST_TEXT + 1];
static uint32_t work[SERDUZHAP_WORK], records[SERDUZHAP_LONGEST_REPORT];

/* How many texts and messages were compared, and how often each kind of fault came. */
static size_t texts, messages, kinds[SERDUZHAP_METHOD_WITHOUT_SELF + 1];

/* The number of faults of a text; none where it is refused. */
static size_t faults_of(size_t text_len) {
    uint32_t answer[SERDUZHAP_REPORT_ANSWER];
    serduzhap_report(text, text_len, work, SERDUZHAP_WORK, records, SERDUZHAP_LONGEST_REPORT, answer);
    return answer[SERDUZHAP_AT_NUMBER] == SERDUZHAP_WRITTEN ? answer[SERDUZHAP_AT_COUNT] : 0;
}

/* Whether the message of fault i is the same, built and written. */
static int same_message(size_t text_len, size_t i) {
    const uint32_t *record = records + SERDUZHAP_RECORD * i;
    uint8_t written[SERDUZHAP_LONGEST_MESSAGE];
    char built[MESSAGE_ROOM];
    uint32_t answer[SERDUZHAP_MESSAGE_ANSWER];
    size_t len = message_of_record(text, text_len, record, built);
    serduzhap_message(text, text_len, work, SERDUZHAP_WORK, i, written, sizeof written, answer);
    messages++;
    kinds[len > 0 ? record[SERDUZHAP_AT_KIND] : 0]++;
    return answer[SERDUZHAP_AT_NUMBER] == SERDUZHAP_WRITTEN && len == answer[SERDUZHAP_AT_COUNT] &&
           memcmp(built, written, len) == 0 && built[len] == 0;
}

/* Compares all messages of a file; answers with the exit status. */
static int compare(const char *name) {
    FILE *file = fopen(name, "rb");
    size_t text_len, faults;
    if (file == NULL) {
        fprintf(stderr, "%s: cannot be read\n", name);
        return 2;
    }
    text_len = fread(text, 1, sizeof text, file);
    fclose(file);
    texts++;
    faults = faults_of(text_len);
    for (size_t i = 0; i < faults; i++) {
        if (!same_message(text_len, i)) {
            printf("%s: the message of fault %zu differs\n", name, i);
            return 1;
        }
    }
    return 0;
}

int main(int count, char **words) {
    for (int i = 1; i < count; i++) {
        int status = compare(words[i]);
        if (status != 0) {
            return status;
        }
    }
    printf("%zu texts, %zu messages;", texts, messages);
    for (size_t kind = SERDUZHAP_UNDEFINED_VARIABLE; kind <= SERDUZHAP_METHOD_WITHOUT_SELF; kind++) {
        printf(" %zu: %zu", kind, kinds[kind]);
    }
    printf("\n");
    return 0;
}
