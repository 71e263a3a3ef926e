/* Paneknoll: the display's end of VESA DDC/CI 1.1, for a controller. docs/CONTROLLER.md is its guide.
 *
 * Link target/staticlib/libddcci_display.a, which is built for x86-64 Linux; it needs memcpy, memmove
 * and memset.
 *
 * Every function is proved, for all inputs, to be safe, to end and to answer as the papers say: document 01,
 * and document 02 for many settings in one call. None allocates. Each answer is a number of `enum
 * ddcci_answer`, and ddcci_answer_text says what it means (ddcci_common.h). A refusal changes nothing, except
 * that the null message is put into the output on 6, and on 8 of a Table read. The slices of one call must
 * not overlap.
 *
 * The display is a struct by value: a call is given the display as the last one left it. A call takes stack,
 * here measured on x86-64 with the copies that its caller makes: a start 3.5 KB, the two that look declared
 * codes up 1.8 KB, a declaration 7.0 KB, a step 8.8 KB, many settings in one call 4.7 KB, writing a profile
 * 3.5 KB, loading one 8.7 KB.
 *
 * Behind an I2C slave: its address is 37, and is not in the slices. One write is one message, from 51 on. A
 * read starts with 6E, which the reply and the null message begin with; any bytes may follow them. */
#ifndef PANEKNOLL_DDCCI_DISPLAY_H
#define PANEKNOLL_DDCCI_DISPLAY_H

#include "ddcci_common.h"

#ifdef __cplusplus
extern "C" {
#endif

/* The bytes of the table's buffer. */
#define DDCCI_DISPLAY_TABLE_ROOM 1024
/* The bytes of a buffer for incoming messages: one more than the longest message. What does not fit is
 * dropped, and a longer message that was cut to 38 bytes could read as right; with 39 it is refused. */
#define DDCCI_DISPLAY_MESSAGE_ROOM (DDCCI_LONGEST_MESSAGE + 1)
/* The bytes of the longest profile: 7 for each code but F4. */
#define DDCCI_DISPLAY_LONGEST_PROFILE 1785
/* The most settings of one call of ddcci_display_set_all. */
#define DDCCI_DISPLAY_MOST_SETTINGS 64
/* What ddcci_display_next_declared returns where no code is left. */
#define DDCCI_DISPLAY_NO_CODE 256
/* The null message, as an initializer. A host that reads gets these bytes where no reply is due: where the
 * last step's reply length is 0, and once its reply was given. */
#define DDCCI_DISPLAY_NULL_MESSAGE {0x6E, 0x80, 0xBE}

/* True or false. In C89, which has no such type, give 0 or 1 and nothing else. */
#if defined(__cplusplus)
typedef bool ddcci_display_bool;
#elif defined(__STDC_VERSION__) && __STDC_VERSION__ >= 199901L
typedef _Bool ddcci_display_bool;
#else
typedef unsigned char ddcci_display_bool;
#endif

/* The fields of a Timing reply. Bits 5 to 2 of the status are 0. */
typedef struct {
    uint8_t status;
    uint16_t horizontal;
    uint16_t vertical;
} ddcci_display_timing;

/* What is held for each code 0 to 255: five sets of codes, in which code c is bit c % 64 of word c / 64, and
 * the values; with the timing's fields between the arrays. */
typedef struct {
    uint64_t declared[4];
    uint64_t readable[4];
    uint64_t writable[4];
    uint64_t momentary[4];
    uint64_t continuous[4];
    uint16_t maximum[256];
    uint16_t horizontal;
    uint16_t saved[256];
    uint16_t vertical;
    uint16_t present[256];
    uint8_t status;
} ddcci_display_settings;

/* A text's length, and the offset and the length of the fragment that was sent last. */
typedef struct {
    uint16_t length;
    uint16_t offset;
    uint16_t sent_length;
} ddcci_display_text;

/* A display: its settings, where its two texts stand, and the most bytes of a fragment. */
typedef struct {
    ddcci_display_settings settings;
    ddcci_display_text capabilities;
    ddcci_display_text table;
    uint16_t fragment_size;
} ddcci_display;

/* What is declared of a code. The kind is its type: 0 kept, 1 momentary. A momentary code is best write-only:
 * ddcutil reads back what it has set, and a momentary value is not stored. */
typedef struct {
    uint8_t code;
    ddcci_display_bool readable;
    ddcci_display_bool writable;
    uint8_t kind;
    ddcci_display_bool continuous;
    uint16_t maximum;
    uint16_t present;
} ddcci_display_declaration;

/* The display afterwards, and an answer number. */
typedef struct {
    ddcci_display display;
    uint8_t answer;
} ddcci_display_changed;

/* The display afterwards, an answer number, and the length of the reply at the start of the output. Then the
 * fragment that was sent: its offset in its text, its length, and which text it is of, as `sent`: 0 none,
 * else 1 more than the text's number. What is not there is 0. */
typedef struct {
    ddcci_display display;
    uint8_t answer;
    size_t length;
    size_t offset;
    size_t count;
    uint8_t sent;
} ddcci_display_stepped;

#define DDCCI_DISPLAY_SENT_NOTHING 0
#define DDCCI_DISPLAY_SENT_CAPABILITIES (DDCCI_CAPABILITIES + 1)
#define DDCCI_DISPLAY_SENT_TABLE (DDCCI_TABLE + 1)

/* An answer number, and the length of the profile at the start of the output. */
typedef struct {
    uint8_t answer;
    size_t length;
} ddcci_display_written;

/* The display afterwards, an answer number, and the start of the profile's record that was refused, or the
 * profile's end. */
typedef struct {
    ddcci_display display;
    uint8_t answer;
    size_t position;
} ddcci_display_loaded;

/* What an accepted message asked for: its command, the code of a Get, a Set or a table's message, and the
 * value of a Set. What it does not have is 0. */
typedef struct {
    uint8_t command;
    uint8_t code;
    uint16_t value;
} ddcci_display_request;

DDCCI_ASSERT_SIZE(ddcci_display_bool, 1);
DDCCI_ASSERT_SIZE(ddcci_display_timing, 6);
DDCCI_ASSERT_SIZE(ddcci_display_settings, 1704);
DDCCI_ASSERT_SIZE(ddcci_display_text, 6);
DDCCI_ASSERT_SIZE(ddcci_display, 1720);
DDCCI_ASSERT_SIZE(ddcci_display_declaration, 10);
DDCCI_ASSERT_SIZE(ddcci_display_changed, 1728);
DDCCI_ASSERT_SIZE(ddcci_display_stepped, 1760);
DDCCI_ASSERT_SIZE(ddcci_display_written, 16);
DDCCI_ASSERT_SIZE(ddcci_display_loaded, 1736);
DDCCI_ASSERT_SIZE(ddcci_display_request, 4);

/* Returns a display with a timing, a capabilities string of at most 4,096 bytes and fragments of 1 to 32
 * bytes, and no code declared yet; or an empty display and 18 for the timing, 11 for the string, 18 for the
 * fragment size, in that order. ddcutil 1.4.1 aborts on a string over 2,046 bytes. */
ddcci_display_changed ddcci_display_start(ddcci_display_timing timing, const uint8_t *text,
                                          size_t text_length, uint16_t fragment_size);

/* Returns the display with a code declared; or 18 and the same display. */
ddcci_display_changed ddcci_display_declare(ddcci_display display, ddcci_display_declaration declaration);

/* Returns how many codes are declared. */
uint16_t ddcci_display_declared_count(ddcci_display display);

/* Returns the least declared code from the given number on, or DDCCI_DISPLAY_NO_CODE. */
uint16_t ddcci_display_next_declared(ddcci_display display, uint16_t from);

/* Answers one message. The capabilities string has its starting length, the table's buffer
 * DDCCI_DISPLAY_TABLE_ROOM bytes, the output at least DDCCI_OUTPUT_ROOM. The table and the output must
 * overlap neither each other nor the message nor the capabilities string. ddcci_display_asked tells
 * afterwards what the message was for. (ddcutil 1.4.1 drops the high byte of a Table write's offset, and so
 * cannot write a list over 255 bytes.) */
ddcci_display_stepped ddcci_display_step(ddcci_display display, const uint8_t *text, size_t text_length,
                                         uint8_t *table, size_t table_length, const uint8_t *message,
                                         size_t message_length, uint8_t *out, size_t out_length);

/* Sets each code to the value at its place, one after the other, and writes the answer of each at its place:
 * 0, 8 or 9. The display and the answers are what that many Set messages give, each stepped by itself: a
 * setting that is refused is skipped and the next one tried, and where a kept code stands twice the later
 * accepted value stands. The call's own answer is then 0, even if each setting was refused, and answers
 * beyond the codes stay. It is 1 for fewer answers than codes, then 7 for more than
 * DDCCI_DISPLAY_MOST_SETTINGS codes, or unequally many codes and values: nothing is tried, and no answer is
 * written. The answers must overlap neither the codes nor the values. */
ddcci_display_changed ddcci_display_set_all(ddcci_display display, const uint8_t *codes, size_t codes_length,
                                            const uint16_t *values, size_t values_length,
                                            uint8_t *answers, size_t answers_length);

/* Writes the profile of the saved values, a record of 7 bytes for each code that is readable, writable and
 * kept; 1 where the output is too short. DDCCI_DISPLAY_LONGEST_PROFILE bytes are always enough. */
ddcci_display_written ddcci_display_write_profile(ddcci_display display, uint8_t *out, size_t out_length);

/* Makes a profile's values present and saved; or answers 8, 9 or 17 with a position, and the same display. */
ddcci_display_loaded ddcci_display_load_profile(ddcci_display display, const uint8_t *profile,
                                                size_t profile_length);

/* Returns what a message asked for, given the answer of its step: so a controller learns which code was set,
 * also of a momentary one, whose value is not stored, and that a Save or a Table write came. A message that
 * was refused asked for nothing: all is 0. So did one that is too short for its command, or has an unknown
 * one, whatever answer is given. */
ddcci_display_request ddcci_display_asked(uint8_t answer, const uint8_t *message, size_t message_length);

#ifdef __cplusplus
}
#endif

#endif
