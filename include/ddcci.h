/* Paneknoll: a verified implementation of both ends of VESA DDC/CI 1.1, for a host.
 *
 * Link target/staticlib/libddcci.a, which is built for x86-64 Linux; it needs memmove and memset.
 *
 * Every function is proved, for all inputs, to be safe, to end and to answer as the papers say: document
 * 01, and document 02 for call lists and compared profiles. None allocates. Each answer is a number of `enum
 * ddcci_answer`, and ddcci_answer_text says what it means (ddcci_common.h). A refusal writes nothing. A slice
 * that is written must not overlap another one of the call: a Table write that was built from data standing
 * in its own output had a wrong checksum. */
#ifndef PANEKNOLL_DDCCI_H
#define PANEKNOLL_DDCCI_H

#include "ddcci_common.h"

#ifdef __cplusplus
extern "C" {
#endif

/* The states of a transfer, by DDCCI_STATE. 0 is closed: a zeroed ddcci_transfer does not run. */
#define DDCCI_EXHAUSTED 0
#define DDCCI_RUNNING 1
#define DDCCI_DONE 2
#define DDCCI_OVERFLOWED 3

/* The most data bytes of a Table write, and of a fragment. */
#define DDCCI_MOST_WRITTEN 31
#define DDCCI_MOST_FRAGMENT 32

/* The most nodes of a capabilities string, and the parent of a node in the outer group. */
#define DDCCI_MOST_NODES 512
#define DDCCI_NO_PARENT 65535

/* The most bytes and the most entries of a call list: 85 records are 1,020 bytes. */
#define DDCCI_LONGEST_CALL_LIST 1024
#define DDCCI_MOST_ENTRIES 85

/* The most differences of two profiles, one for each code, and what stands for the value of a code that a
 * profile does not have: no value is 65,536. */
#define DDCCI_MOST_DIFFERENCES 256
#define DDCCI_ABSENT 65536u

/* The room to read a profile from a file: one byte more than the 1,792 of a record for each code. Read into
 * less, a longer file that is cut behind a record could be taken for a profile. */
#define DDCCI_PROFILE_ROOM 1793

/* What a builder answers: an answer number, and the length of the message or 0. */
typedef struct {
    uint8_t answer;
    size_t length;
} ddcci_built;

/* A request that was read: the command; the code; the value of a Set or the offset; where its data start
 * in the slice, and how many they are. What it does not have is 0. */
typedef struct {
    uint8_t answer;
    uint8_t command;
    uint8_t code;
    uint16_t word;
    size_t position;
    size_t length;
} ddcci_request_read;

/* A reply that was read: the command; a Value's result or a timing's status; a Value's code and type;
 * maximum and present, horizontal and vertical, or the offset; where its data start in the slice, and how
 * many they are. What it does not have is 0. */
typedef struct {
    uint8_t answer;
    uint8_t command;
    uint8_t status;
    uint8_t code;
    uint8_t kind;
    uint16_t first;
    uint16_t second;
    size_t position;
    size_t length;
} ddcci_reply_read;

/* What reading a capabilities string answers: the number of nodes, or the position that is refused. */
typedef struct {
    uint8_t answer;
    size_t nodes;
    size_t position;
} ddcci_reading;

/* A transfer: the length of the buffer that it was begun with; the offset reached, which is how many bytes
 * of the text have come; its budget and its count of exchanges; its phase, which is the state, and 4 more
 * for the table; and the answer of the call that made it. Begin and receive make one; any other is judged
 * like these, never trusted. */
typedef struct {
    size_t buffer_length;
    uint16_t offset;
    uint16_t budget;
    uint16_t count;
    uint8_t phase;
    uint8_t answer;
} ddcci_transfer;

/* What the check of a call list answers: the number of entries and the end of the list, or no entries and
 * the position where the refused record starts. */
typedef struct {
    uint8_t answer;
    size_t entries;
    size_t position;
} ddcci_call_list;

/* What the query of a household answers: there 1 and its entry's number, counted from 0; or there 0 and
 * number 0 where the household is not there. The position is 0, or of a refused list where the refused
 * record starts. */
typedef struct {
    uint8_t answer;
    uint8_t there;
    size_t number;
    size_t position;
} ddcci_household;

/* An entry of a call list: a token, and the household that it calls. */
typedef struct {
    uint32_t token;
    uint32_t household;
} ddcci_entry;

/* What the comparison of two profiles answers: the number of differences; or no differences, with the profile
 * that is refused, 1 the first or 2 the second, and the position where the refused record starts in it. What
 * it does not have is 0. */
typedef struct {
    uint8_t answer;
    uint8_t profile;
    size_t differences;
    size_t position;
} ddcci_compared;

DDCCI_ASSERT_SIZE(ddcci_built, 16);
DDCCI_ASSERT_SIZE(ddcci_request_read, 24);
DDCCI_ASSERT_SIZE(ddcci_reply_read, 32);
DDCCI_ASSERT_SIZE(ddcci_reading, 24);
DDCCI_ASSERT_SIZE(ddcci_transfer, 16);
DDCCI_ASSERT_SIZE(ddcci_call_list, 24);
DDCCI_ASSERT_SIZE(ddcci_household, 24);
DDCCI_ASSERT_SIZE(ddcci_entry, 8);
DDCCI_ASSERT_SIZE(ddcci_compared, 24);

/* The state and the text of a transfer. A refused begin of an unknown text has text 2, which names none. */
#define DDCCI_STATE(transfer) ((transfer).phase % 4)
#define DDCCI_TEXT(transfer) ((transfer).phase / 4)

/* Returns the exclusive or of the bytes with a seed: 6E for a request, 50 for a reply. It is 0 over a
 * whole message. */
uint8_t ddcci_checksum(uint8_t seed, const uint8_t *bytes, size_t bytes_length);

/* Reads a request: answers 0, or 2, 3, 4, 5, 6, 7 in that order. The slice is the whole message. */
ddcci_request_read ddcci_read_request(const uint8_t *message, size_t message_length);

/* Reads the reply that the slice begins with: answers 0, or 2, 3, 4, 5, 12, 6, 7 in that order. What
 * follows the reply is ignored, so that DDCCI_LONGEST_MESSAGE bytes read from a display are always enough. */
ddcci_reply_read ddcci_read_reply(const uint8_t *message, size_t message_length);

/* Each builder answers 1 for an output under DDCCI_OUTPUT_ROOM bytes, then 7 for a field that the command
 * does not allow. Else it writes the message at the start of the output, leaves the bytes beyond it, and
 * answers its length. The data must not overlap the output. */
ddcci_built ddcci_build_get(uint8_t code, uint8_t *out, size_t out_length);
ddcci_built ddcci_build_set(uint8_t code, uint16_t value, uint8_t *out, size_t out_length);
ddcci_built ddcci_build_timing(uint8_t *out, size_t out_length);
ddcci_built ddcci_build_save(uint8_t *out, size_t out_length);
ddcci_built ddcci_build_text(uint16_t offset, uint8_t *out, size_t out_length);
ddcci_built ddcci_build_table_read(uint8_t code, uint16_t offset, uint8_t *out, size_t out_length);
ddcci_built ddcci_build_table_write(uint8_t code, uint16_t offset, const uint8_t *data,
                                    size_t data_length, uint8_t *out, size_t out_length);
ddcci_built ddcci_build_value(uint8_t result, uint8_t code, uint8_t kind, uint16_t max,
                              uint16_t present, uint8_t *out, size_t out_length);
ddcci_built ddcci_build_timing_reply(uint8_t status, uint16_t horizontal, uint16_t vertical,
                                     uint8_t *out, size_t out_length);
ddcci_built ddcci_build_text_fragment(uint16_t offset, const uint8_t *data, size_t data_length,
                                      uint8_t *out, size_t out_length);
ddcci_built ddcci_build_table_fragment(uint16_t offset, const uint8_t *data, size_t data_length,
                                       uint8_t *out, size_t out_length);
ddcci_built ddcci_build_null(uint8_t *out, size_t out_length);

/* Reads a capabilities string: answers 0 and writes one entry a node into each of the four buffers, in text
 * order, entries past them stay; or 11, 13, 14, 15 with the position, and writes nothing. The room is the
 * length of the shortest buffer, at most DDCCI_MOST_NODES. A node's entries are the start and the length of
 * its word, its parent's number or DDCCI_NO_PARENT, and 1 where a group follows it, else 0. Zero bytes may
 * stand behind the outer group: they make no node, and count to the 4,096 bytes that a string may have. No
 * two of the five slices may overlap. */
ddcci_reading ddcci_read_capabilities(const uint8_t *text, size_t text_length, uint16_t *starts,
                                      size_t starts_length, uint16_t *lengths, size_t lengths_length,
                                      uint16_t *parents, size_t parents_length, uint8_t *groups,
                                      size_t groups_length);

/* Begins a transfer of a text (DDCCI_CAPABILITIES or DDCCI_TABLE) into a buffer: answers 0, 18 for a budget
 * above 65,535, or 6 for an unknown text; a refused one is closed. The room is the buffer's length, at most
 * 4,096 bytes. */
ddcci_transfer ddcci_begin(uint8_t text, const uint8_t *buffer, size_t buffer_length, size_t budget);

/* Builds the request for the offset that the transfer has reached: answers 0, 16 if it is closed, 1 for an
 * output under DDCCI_OUTPUT_ROOM bytes, or 6 for an unknown text. The output must not overlap the buffer. */
ddcci_built ddcci_request(ddcci_transfer transfer, uint8_t *out, size_t out_length);

/* Receives the bytes that came back, or none: answers 0 and puts the fragment's data at the offset reached;
 * 16 if the transfer is closed; 1 for another buffer's length; the reader's number; 10 for another fragment;
 * 11 for data past the room, which closes the transfer; 6 for an unknown text. The reply must not overlap
 * the buffer. The text is whole only where the state is DDCCI_DONE afterwards; a capabilities string that
 * ends with zero bytes comes with them, and ddcci_read_capabilities takes them. */
ddcci_transfer ddcci_receive(ddcci_transfer transfer, uint8_t *buffer, size_t buffer_length,
                             const uint8_t *reply, size_t reply_length);

/* Checks a call list before anyone is called by it. A record has 12 bytes: its length 10 and its kind 32 in
 * 2 bytes each, the token and the household in 4 bytes each, the lowest byte first. Answers 0 with the
 * number of entries, which for the empty list is 0; 11 at 0 for more than DDCCI_LONGEST_CALL_LIST bytes;
 * else the position of the first record that is broken (17), repeats the token of an earlier one (19) or
 * the household of an earlier one (20), in that order for one record. */
ddcci_call_list ddcci_check_call_list(const uint8_t *list, size_t list_length);

/* Finds the entry that calls a household: answers 0 with there 1 and the entry's number, or with there 0;
 * or the check's answer and position for a list that is not accepted. It checks the list each time. */
ddcci_household ddcci_find_household(const uint8_t *list, size_t list_length, uint32_t household);

/* Returns the entry with this number, counted from 0, of an accepted list; past its entries both fields
 * are 0. Of a list that was not accepted it is what stands there: check first. */
ddcci_entry ddcci_call_list_entry(const uint8_t *list, size_t list_length, size_t number);

/* Compares two profiles. A record has 7 bytes: its length 5 and its kind 1 in 2 bytes each, the code, and the
 * value in 2 bytes, the lowest byte first. A profile is judged by its form alone, not against a display: whole
 * records with rising codes, of which F4 may be one; the empty profile is accepted. Answers 17 with profile 1
 * for the first record of the first profile that is not so, then 17 with profile 2 for the second profile,
 * then 1 for less room than differences. Else it answers 0 with the number of differences, and writes one
 * entry a difference into each of the three buffers: the codes that are in one profile only or whose value
 * differs, rising, with the value in the first and in the second profile or DDCCI_ABSENT. Entries past them
 * stay. No difference means that the profiles have the same bytes. The room is the length of the shortest
 * buffer; DDCCI_MOST_DIFFERENCES is always enough. No buffer may overlap another slice. */
ddcci_compared ddcci_compare_profiles(const uint8_t *first, size_t first_length, const uint8_t *second,
                                      size_t second_length, uint8_t *codes, size_t codes_length,
                                      uint32_t *first_values, size_t first_values_length,
                                      uint32_t *second_values, size_t second_values_length);

#ifdef __cplusplus
}
#endif

#endif
