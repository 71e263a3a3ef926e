/* Both headers in one file that is C89, C17 and C++ alike: the meaning of every answer number, the version,
 * what an accepted message asked for, that a message with a byte behind it is refused, many settings in one
 * call, call lists of the greatest length and around it, and two profiles compared with room around what is
 * needed.
 *
 *     cc -Iinclude c/headers.c target/staticlib/libddcci.a target/staticlib/libddcci_display.a -o headers && ./headers
 */
#include <stdio.h>
#include <string.h>

#include "ddcci.h"
#include "ddcci_display.h"

static const uint8_t text[] = "(vcp(10 F4))";
static uint8_t table[DDCCI_DISPLAY_TABLE_ROOM];

/* Writes what a message came to, and beside it how the host's library reads the same message. */
static ddcci_display show(ddcci_display display, const uint8_t *message, size_t length) {
    uint8_t out[DDCCI_OUTPUT_ROOM];
    ddcci_display_stepped step = ddcci_display_step(display, text, sizeof text - 1, table, sizeof table,
                                                    message, length, out, sizeof out);
    ddcci_display_request asked = ddcci_display_asked(step.answer, message, length);
    ddcci_request_read read = ddcci_read_request(message, length);
    printf("answer %u: command %02X, code %02X, value %u; ", step.answer, asked.command, asked.code, asked.value);
    printf("read: %u, %02X, %02X, %u\n", read.answer, read.command, read.code, read.word);
    return step.display;
}

/* Writes how many codes are declared, and which. */
static void show_declared(ddcci_display display) {
    uint16_t code = ddcci_display_next_declared(display, 0);
    printf("%u codes declared:", ddcci_display_declared_count(display));
    while (code != DDCCI_DISPLAY_NO_CODE) {
        printf(" %02X", code);
        code = ddcci_display_next_declared(display, (uint16_t)(code + 1));
    }
    printf("\n");
}

/* Writes what a call of so many codes, values and answers came to: its answer, the brightness afterwards, the
 * answers of the first setting and of the last that a call may have, and the byte behind. */
static void show_set(ddcci_display display, size_t codes_length, size_t values_length, size_t answers_length) {
    static uint8_t codes[DDCCI_DISPLAY_MOST_SETTINGS + 1], answers[DDCCI_DISPLAY_MOST_SETTINGS + 1];
    static uint16_t values[DDCCI_DISPLAY_MOST_SETTINGS + 1];
    ddcci_display_changed set;
    size_t i;
    for (i = 0; i <= DDCCI_DISPLAY_MOST_SETTINGS; i++) {
        codes[i] = 0x10;
        values[i] = (uint16_t)(38 + i); /* the last of 64 is 101, which is above the maximum */
        answers[i] = 77;
    }
    set = ddcci_display_set_all(display, codes, codes_length, values, values_length, answers, answers_length);
    printf("%lu codes, %lu values, ", (unsigned long)codes_length, (unsigned long)values_length);
    printf("%lu answers: answer %u, ", (unsigned long)answers_length, set.answer);
    printf("brightness %u; ", set.display.settings.present[0x10]);
    printf("%u, %u, %u\n", answers[0], answers[DDCCI_DISPLAY_MOST_SETTINGS - 1], answers[DDCCI_DISPLAY_MOST_SETTINGS]);
}

static void show_settings(ddcci_display display) {
    show_set(display, 64, 64, 65);
    show_set(display, 1, 1, 64);
    show_set(display, 0, 0, 0);
    show_set(display, 65, 65, 65);
    show_set(display, 64, 63, 64);
    show_set(display, 65, 64, 64);
}

static void show_messages(void) {
    static const ddcci_display_timing timing = {2, 13340, 6000};
    static const ddcci_display_declaration brightness = {0x10, 1, 1, 0, 1, 100, 50};
    static const ddcci_display_declaration degauss = {0x01, 0, 1, 1, 0, 1, 0};
    uint8_t out[DDCCI_OUTPUT_ROOM];
    ddcci_display display = ddcci_display_start(timing, text, sizeof text - 1, 32).display;
    display = ddcci_display_declare(display, brightness).display;
    display = ddcci_display_declare(display, degauss).display;
    display = show(display, out, ddcci_build_get(0x10, out, sizeof out).length);
    display = show(display, out, ddcci_build_set(0x10, 70, out, sizeof out).length);
    display = show(display, out, ddcci_build_set(0x01, 1, out, sizeof out).length);
    display = show(display, out, ddcci_build_set(0x10, 101, out, sizeof out).length);
    display = show(display, out, ddcci_build_timing(out, sizeof out).length);
    display = show(display, out, ddcci_build_save(out, sizeof out).length);
    display = show(display, out, ddcci_build_text(0, out, sizeof out).length);
    display = show(display, out, ddcci_build_table_write(DDCCI_TABLE_CODE, 0, text, 3, out, sizeof out).length);
    display = show(display, out, ddcci_build_table_read(DDCCI_TABLE_CODE, 0, out, sizeof out).length);
    display = show(display, out, 0);
    printf("brightness %u, list %u bytes\n", display.settings.present[0x10], display.table.length);
    show_declared(display);
    show_settings(display);
}

/* A message of 39 bytes whose first 38 are a right one: with a byte more room than the longest it is refused. */
static void show_cut(void) {
    static const uint8_t data[DDCCI_MOST_WRITTEN] = {0};
    uint8_t message[DDCCI_DISPLAY_MESSAGE_ROOM];
    message[DDCCI_LONGEST_MESSAGE] = 0;
    ddcci_build_table_write(DDCCI_TABLE_CODE, 0, data, sizeof data, message, sizeof message);
    printf("39 bytes: answer %u; ", ddcci_read_request(message, sizeof message).answer);
    printf("cut to 38: answer %u\n", ddcci_read_request(message, DDCCI_LONGEST_MESSAGE).answer);
}

/* Writes all that the check and the query answer, and the token of an accepted list's entry 84. */
static void show_checked(const uint8_t *list, size_t length) {
    ddcci_call_list checked = ddcci_check_call_list(list, length);
    ddcci_household found = ddcci_find_household(list, length, 84);
    ddcci_entry last = ddcci_call_list_entry(list, checked.entries * 12, DDCCI_MOST_ENTRIES - 1);
    printf("%lu bytes: answer %u, ", (unsigned long)length, checked.answer);
    printf("%lu entries, position %lu; ", (unsigned long)checked.entries, (unsigned long)checked.position);
    printf("household 84: answer %u, ", found.answer);
    printf("%u, %lu, %lu; ", found.there, (unsigned long)found.number, (unsigned long)found.position);
    printf("last token %lu\n", (unsigned long)last.token);
}

/* The longest call list, with token 100 + i for household i; bytes behind it; and its token 184 twice. */
static void show_call_lists(void) {
    static uint8_t list[DDCCI_LONGEST_CALL_LIST + 1];
    size_t i;
    for (i = 0; i < DDCCI_MOST_ENTRIES; i++) {
        list[12 * i] = 10;
        list[12 * i + 2] = 32;
        list[12 * i + 4] = (uint8_t)(100 + i);
        list[12 * i + 8] = (uint8_t)i;
    }
    show_checked(list, 12 * DDCCI_MOST_ENTRIES);
    show_checked(list, DDCCI_LONGEST_CALL_LIST);
    show_checked(list, sizeof list);
    show_checked(list, 0);
    list[4] = 184;
    show_checked(list, 12 * DDCCI_MOST_ENTRIES);
}

/* Writes all that a comparison of so many codes with so many others answers, and the entries of the first
 * difference, of the last that there can be, and behind it. */
static void show_compared(size_t first_count, size_t second_count, size_t room, size_t second_room) {
    static uint8_t first[7 * (DDCCI_MOST_DIFFERENCES + 1)], second[7 * (DDCCI_MOST_DIFFERENCES + 1)];
    static uint8_t codes[DDCCI_MOST_DIFFERENCES + 1];
    static uint32_t first_values[DDCCI_MOST_DIFFERENCES + 1], second_values[DDCCI_MOST_DIFFERENCES + 1];
    static const size_t places[] = {0, DDCCI_MOST_DIFFERENCES - 1, DDCCI_MOST_DIFFERENCES};
    ddcci_compared compared;
    size_t i;
    for (i = 0; i <= DDCCI_MOST_DIFFERENCES; i++) {
        first[7 * i] = second[7 * i] = 5;
        first[7 * i + 2] = second[7 * i + 2] = 1;
        first[7 * i + 4] = second[7 * i + 4] = (uint8_t)i; /* the code behind the last one is 0 again */
        first[7 * i + 5] = 50;
        second[7 * i + 5] = 70;
        codes[i] = 77;
        first_values[i] = second_values[i] = 77;
    }
    compared = ddcci_compare_profiles(first, 7 * first_count, second, 7 * second_count, codes, room, first_values,
                                      room, second_values, second_room);
    printf("%lu and %lu codes, ", (unsigned long)first_count, (unsigned long)second_count);
    printf("room %lu, %lu: ", (unsigned long)room, (unsigned long)second_room);
    printf("answer %u, profile %u, ", compared.answer, compared.profile);
    printf("%lu differences, ", (unsigned long)compared.differences);
    printf("position %lu;", (unsigned long)compared.position);
    for (i = 0; i < 3; i++) {
        size_t at = places[i];
        printf(" %02X %lu %lu;", codes[at], (unsigned long)first_values[at], (unsigned long)second_values[at]);
    }
    printf("\n");
}

static void show_profiles(void) {
    printf("absent: %lu\n", (unsigned long)DDCCI_ABSENT);
    show_compared(256, 256, 256, 256);
    show_compared(256, 0, 257, 256);
    show_compared(0, 256, 256, 257);
    show_compared(256, 256, 256, 255);
    show_compared(255, 256, 255, 256);
    show_compared(1, 0, 1, 1);
    show_compared(0, 0, 0, 0);
    show_compared(257, 257, 0, 0);
    show_compared(256, 257, 0, 0);
}

int main(void) {
    static const uint8_t null_message[] = DDCCI_DISPLAY_NULL_MESSAGE;
    int answer;
    printf("version %s, %d.%d.%d\n", DDCCI_VERSION, DDCCI_VERSION_MAJOR, DDCCI_VERSION_MINOR, DDCCI_VERSION_PATCH);
    for (answer = 0; answer < 256; answer++) printf("%d %s\n", answer, ddcci_answer_text(answer));
    show_messages();
    show_cut();
    show_call_lists();
    show_profiles();
    printf("null message: answer %u\n", ddcci_read_reply(null_message, sizeof null_message).answer);
    return 0;
}
