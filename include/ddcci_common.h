/* Paneknoll: what ddcci.h and ddcci_display.h share: version, answer numbers, commands, texts.
 *
 * Slices: a slice is a pointer and a length, which counts elements. A length of 0 may go with any
 * pointer that is not null. The slices of one call must not overlap, save that slices which are
 * only read (const) may: what is proved speaks of slices that lie apart. */
#ifndef PANEKNOLL_DDCCI_COMMON_H
#define PANEKNOLL_DDCCI_COMMON_H

#include <stddef.h>
#include <stdint.h>

/* The version of the headers and of the archives that they go with. */
#define DDCCI_VERSION "0.6.0"
#define DDCCI_VERSION_MAJOR 0
#define DDCCI_VERSION_MINOR 6
#define DDCCI_VERSION_PATCH 0

/* The bytes of the longest message of either direction, and the least output of a builder. */
#define DDCCI_LONGEST_MESSAGE 38
#define DDCCI_OUTPUT_ROOM DDCCI_LONGEST_MESSAGE

/* The texts of a display. */
#define DDCCI_CAPABILITIES 0
#define DDCCI_TABLE 1

/* The VCP code of the table. */
#define DDCCI_TABLE_CODE 0xF4

/* The first byte of a message's body: seven to the display, four to the host. */
enum ddcci_command {
    DDCCI_COMMAND_GET = 0x01,
    DDCCI_COMMAND_SET = 0x03,
    DDCCI_COMMAND_TIMING = 0x07,
    DDCCI_COMMAND_SAVE = 0x0C,
    DDCCI_COMMAND_TEXT = 0xF3,
    DDCCI_COMMAND_TABLE_READ = 0xE2,
    DDCCI_COMMAND_TABLE_WRITE = 0xE7,
    DDCCI_COMMAND_VALUE = 0x02,
    DDCCI_COMMAND_TIMING_REPLY = 0x4E,
    DDCCI_COMMAND_TEXT_FRAGMENT = 0xE3,
    DDCCI_COMMAND_TABLE_FRAGMENT = 0xE4
};

/* The answer numbers of the papers' table. ddcci_answer_text says what each one means. Of many settings in
 * one call, 1 is fewer answers than codes, and 7 more than 64 settings, or unequally many codes and values.
 * Of two profiles that are compared, 1 is fewer entries than differences, and 17 a record that is broken or
 * whose code is not above the one before it. */
enum ddcci_answer {
    DDCCI_ANSWER_DONE = 0,
    DDCCI_ANSWER_WRONG_SIZE = 1,
    DDCCI_ANSWER_TOO_SHORT = 2,
    DDCCI_ANSWER_WRONG_FIRST_BYTE = 3,
    DDCCI_ANSWER_WRONG_LENGTH = 4,
    DDCCI_ANSWER_WRONG_CHECKSUM = 5,
    DDCCI_ANSWER_UNKNOWN_COMMAND = 6,
    DDCCI_ANSWER_WRONG_FIELD = 7,
    DDCCI_ANSWER_CODE_NOT_ALLOWED = 8,
    DDCCI_ANSWER_VALUE_TOO_LARGE = 9,
    DDCCI_ANSWER_NOT_WANTED = 10,
    DDCCI_ANSWER_TEXT_TOO_LONG = 11,
    DDCCI_ANSWER_NULL_MESSAGE = 12,
    DDCCI_ANSWER_WRONG_GRAMMAR = 13,
    DDCCI_ANSWER_NO_NODE_ROOM = 14,
    DDCCI_ANSWER_TOO_DEEP = 15,
    DDCCI_ANSWER_TRANSFER_CLOSED = 16,
    DDCCI_ANSWER_BROKEN_RECORD = 17,
    DDCCI_ANSWER_NOT_DECLARABLE = 18,
    DDCCI_ANSWER_REPEATED_TOKEN = 19,
    DDCCI_ANSWER_REPEATED_HOUSEHOLD = 20
};

#if defined(__cplusplus) || (defined(__STDC_VERSION__) && __STDC_VERSION__ >= 199901L)
#define DDCCI_INLINE static inline
#elif defined(__GNUC__)
#define DDCCI_INLINE static __inline__
#else
#define DDCCI_INLINE static
#endif

/* Returns what an answer number means, for people. */
DDCCI_INLINE const char *ddcci_answer_text(int answer) {
    switch (answer) {
    case DDCCI_ANSWER_DONE:
        return "done";
    case DDCCI_ANSWER_WRONG_SIZE:
        return "a lent buffer has the wrong size (an output needs 38 bytes, a setting an answer, "
               "a difference an entry)";
    case DDCCI_ANSWER_TOO_SHORT:
        return "the message is under 3 bytes";
    case DDCCI_ANSWER_WRONG_FIRST_BYTE:
        return "the first byte is not the one of this direction";
    case DDCCI_ANSWER_WRONG_LENGTH:
        return "the length byte is wrong, or the slice does not agree with it";
    case DDCCI_ANSWER_WRONG_CHECKSUM:
        return "the checksum is wrong: ask again";
    case DDCCI_ANSWER_UNKNOWN_COMMAND:
        return "the command or the text's number is not in the table";
    case DDCCI_ANSWER_WRONG_FIELD:
        return "the length or a field is wrong for the command, or a list of settings is too long or uneven";
    case DDCCI_ANSWER_CODE_NOT_ALLOWED:
        return "the VCP code is not allowed";
    case DDCCI_ANSWER_VALUE_TOO_LARGE:
        return "the value is above the maximum";
    case DDCCI_ANSWER_NOT_WANTED:
        return "the offset or fragment is not the one wanted";
    case DDCCI_ANSWER_TEXT_TOO_LONG:
        return "the text is too long for its room (a call list has at most 1,024 bytes)";
    case DDCCI_ANSWER_NULL_MESSAGE:
        return "the display sent the null message: it is busy or does not know the command";
    case DDCCI_ANSWER_WRONG_GRAMMAR:
        return "the capabilities string does not follow the grammar";
    case DDCCI_ANSWER_NO_NODE_ROOM:
        return "there is no room for another node";
    case DDCCI_ANSWER_TOO_DEEP:
        return "groups nest deeper than 8";
    case DDCCI_ANSWER_TRANSFER_CLOSED:
        return "the transfer is closed: begin another";
    case DDCCI_ANSWER_BROKEN_RECORD:
        return "the profile or call list is broken here: do not use it";
    case DDCCI_ANSWER_NOT_DECLARABLE:
        return "the declaration, timing, fragment size or budget is not allowed";
    case DDCCI_ANSWER_REPEATED_TOKEN:
        return "a token stands twice in the call list: call nobody by it";
    case DDCCI_ANSWER_REPEATED_HOUSEHOLD:
        return "a household stands twice in the call list: call nobody by it";
    default:
        return "unknown answer";
    }
}

/* Refuses to compile where a struct has not the size that the archives were built with. */
#define DDCCI_ASSERT_SIZE(type, size) typedef char type##_has_its_size[sizeof(type) == (size) ? 1 : -1]

#endif
