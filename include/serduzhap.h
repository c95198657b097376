/**
 * @file serduzhap.h
 * @brief Serduzhap: a name check with a proof. The calls over a tree text and a work buffer of 32-bit numbers.
 *
 * What is proved. Each call takes any bytes, any contents of the buffers, any lengths and any i; it ends, and writes
 * every number of its answer, all of them as docs/FORMAT.md says. It writes nothing but the work buffer, the output
 * and the answer. A refusal leaves the output as it was; what the work buffer holds after a call is unspecified.
 *
 * What a caller sees to:
 * - Each pointer is valid for its count of bytes or numbers, and aligned for its type. Null is fine where the count is
 *   0; an answer is never null.
 * - Text, work, output and answer do not overlap, and nobody else writes them, or reads what is written, during a call.
 * - There is stack enough: @ref SERDUZHAP_STACK bytes on x86-64; docs/TARGETS.md has the other targets.
 * - memcpy, memmove and memset are there to be linked; not every target needs all three. Nothing else is called, and
 *   nothing is allocated.
 *
 * Nothing is kept between calls, so calls may run at the same time on different buffers. Each call does the whole check
 * again: for the messages of many faults take the report once, and build them from the records.
 *
 * Counts are 64-bit numbers on every target.
 */
#ifndef SERDUZHAP_H
#define SERDUZHAP_H

#include <stdint.h>

#ifdef __cplusplus
extern "C" {
#endif

/** @name The version that this header is of
 * A library of the same major number and no lower minor number has every call and number of this header, and answers
 * as it says.
 * @{ */
#define SERDUZHAP_VERSION_MAJOR 1
#define SERDUZHAP_VERSION_MINOR 0
#define SERDUZHAP_VERSION_PATCH 2
/** @} */

/** @name The first number of an answer
 * 0 is none of them: an answer that is all zeros was written by none of the calls over a text.
 * @{ */
#define SERDUZHAP_ACCEPTED 100 /**< check: the text is a tree of which the rule holds. Nothing else has this number. */
#define SERDUZHAP_WRITTEN 101  /**< report, message: with the number of records or bytes that were written */
#define SERDUZHAP_PART 102     /**< name: with the offset and the length of a part of the text */

#define SERDUZHAP_TEXT_TOO_LONG 1  /**< the text has over 65,536 bytes; with line 0 */
#define SERDUZHAP_WORK_TOO_SHORT 2 /**< the work buffer has under 16,384 numbers; with line 0 */
#define SERDUZHAP_LINE_MISSING 3   /**< the text ends and a line is due; 3 to 7 come with the line's number, from 1 */
#define SERDUZHAP_LINE_LEFT 4      /**< a line after the last one that was due */
#define SERDUZHAP_MALFORMED 5      /**< unknown word, wrong fields, bad name or number, no LF */
#define SERDUZHAP_NOT_DUE 6        /**< well-formed, not due here */
#define SERDUZHAP_OVER_LIMIT 7     /**< over 4,096 lines, depth 64 or 16 names */

#define SERDUZHAP_UNDEFINED_VARIABLE 8
#define SERDUZHAP_UNDEFINED_FUNCTION 9
#define SERDUZHAP_UNDEFINED_CAPTURE 10 /**< of a lambda */
#define SERDUZHAP_UNBOUND_VARIABLE 11
#define SERDUZHAP_UNBOUND_FUNCTION 12
#define SERDUZHAP_UNBOUND_CAPTURE 13 /**< of a lambda */
#define SERDUZHAP_INVALID_TARGET 14
#define SERDUZHAP_METHOD_WITHOUT_SELF 15

#define SERDUZHAP_OUTPUT_TOO_SHORT 16 /**< report: under 7 numbers for each fault; with the count of faults */
#define SERDUZHAP_NO_SUCH_FAULT 17    /**< message: there is no fault i */
#define SERDUZHAP_MESSAGE_TOO_LONG 18 /**< message: the message is longer than the output */
/** @} */

/** @name How many numbers each call's answer has
 * @{ */
#define SERDUZHAP_CHECK_ANSWER 7
#define SERDUZHAP_REPORT_ANSWER 2
#define SERDUZHAP_MESSAGE_ANSWER 2
#define SERDUZHAP_NAME_ANSWER 3
#define SERDUZHAP_VERSION_ANSWER 3
/** @} */

/** @name What stands where in an answer
 * @{ */
#define SERDUZHAP_AT_NUMBER 0 /**< of each call over a text: a number above */
#define SERDUZHAP_AT_LINE 1   /**< 1 to 7: the line */
#define SERDUZHAP_AT_COUNT 1  /**< SERDUZHAP_WRITTEN, 16: the count */
#define SERDUZHAP_AT_OFFSET 1 /**< SERDUZHAP_PART: the offset in the text */
#define SERDUZHAP_AT_LENGTH 2 /**< SERDUZHAP_PART: the length */
/** @} */

/** @name What stands where in a record, and in the answer of check for 8 to 15
 * What is absent is 0: the name for 14, the class name for all but 15.
 * @{ */
#define SERDUZHAP_AT_KIND 0
#define SERDUZHAP_AT_START 1 /**< the span in the script, as the tree text has it */
#define SERDUZHAP_AT_END 2
#define SERDUZHAP_AT_NAME 3 /**< offset of the name in the tree text */
#define SERDUZHAP_AT_NAME_LEN 4
#define SERDUZHAP_AT_CLASS 5 /**< offset of the class name in the tree text */
#define SERDUZHAP_AT_CLASS_LEN 6
/** @} */

/** @name Sizes
 * @{ */
#define SERDUZHAP_WORK 16384           /**< numbers of the work buffer, at least */
#define SERDUZHAP_RECORD 7             /**< numbers of a record */
#define SERDUZHAP_MOST_FAULTS 4096     /**< no text has more */
#define SERDUZHAP_LONGEST_REPORT 28672 /**< numbers that hold any report: 7 times 4,096 */
#define SERDUZHAP_LONGEST_TEXT 65536   /**< bytes; a longer text is refused */
#define SERDUZHAP_LONGEST_NAME 63      /**< bytes */
#define SERDUZHAP_LONGEST_MESSAGE 183  /**< bytes: no message is longer */
#define SERDUZHAP_STACK 30720          /**< bytes of stack that any call takes at most, on x86-64 */
/** @} */

/**
 * Checks a tree text.
 *
 * Answer: SERDUZHAP_ACCEPTED; or 8 to 15 and the rest of the first fault's record; or 1 to 7 and a line.
 */
void serduzhap_check(const uint8_t *text, uint64_t text_len, uint32_t *work, uint64_t work_len,
                     uint32_t answer[SERDUZHAP_CHECK_ANSWER]);

/**
 * Writes all faults of a tree text to out, as records of seven numbers, in the order of docs/FORMAT.md.
 *
 * Answer: SERDUZHAP_WRITTEN and the number of records; or 1 to 7 and a line; or SERDUZHAP_OUTPUT_TOO_SHORT and the
 * number of faults.
 */
void serduzhap_report(const uint8_t *text, uint64_t text_len, uint32_t *work, uint64_t work_len, uint32_t *out,
                      uint64_t out_len, uint32_t answer[SERDUZHAP_REPORT_ANSWER]);

/**
 * Writes the message of fault i to out: bytes, with no 0 at their end. Faults count from 0, in the report's order.
 *
 * Answer: SERDUZHAP_WRITTEN and the number of bytes; or 1 to 7 and a line; or SERDUZHAP_NO_SUCH_FAULT; or
 * SERDUZHAP_MESSAGE_TOO_LONG.
 */
void serduzhap_message(const uint8_t *text, uint64_t text_len, uint32_t *work, uint64_t work_len, uint64_t i,
                       uint8_t *out, uint64_t out_len, uint32_t answer[SERDUZHAP_MESSAGE_ANSWER]);

/**
 * Tells where the name of fault i stands in the text.
 *
 * Answer: SERDUZHAP_PART, offset and length. They are 0 and 0 where the fault has no name (14), where there is no fault
 * i, and where the text is refused.
 */
void serduzhap_name(const uint8_t *text, uint64_t text_len, uint32_t *work, uint64_t work_len, uint64_t i,
                    uint32_t answer[SERDUZHAP_NAME_ANSWER]);

/** Tells the version of the library that is linked: major, minor, patch. */
void serduzhap_version(uint32_t answer[SERDUZHAP_VERSION_ANSWER]);

#ifdef __cplusplus
}
#endif

#endif
