/* What a controller does with Paneknoll's display: start it, declare brightness, answer messages, learn what
 * they changed, take many settings in one call, and keep its profile. docs/CONTROLLER.md is the guide.
 *
 *     cc -Iinclude c/display.c target/staticlib/libddcci_display.a -o display && ./display
 */
#include <stdio.h>
#include <string.h>

#include "ddcci_display.h"

static const uint8_t text[] = "(vcp(10 F4))";
static uint8_t table[DDCCI_DISPLAY_TABLE_ROOM];

/* What the controller does of its own when a message was accepted. */
static void act(ddcci_display display, ddcci_display_request asked) {
    switch (asked.command) {
    case DDCCI_COMMAND_SET:
        printf("  code %02X was set to %u: give it to the panel\n", asked.code, asked.value);
        break;
    case DDCCI_COMMAND_SAVE:
        printf("  saved: keep the profile\n");
        break;
    case DDCCI_COMMAND_TABLE_WRITE:
        printf("  the list has %u bytes: show it anew\n", display.table.length);
        break;
    default:
        break;
    }
}

/* The bytes that a host's read gets: the reply, or the null message where none is due. */
static void show_reply(const uint8_t *out, size_t length) {
    static const uint8_t null_message[] = DDCCI_DISPLAY_NULL_MESSAGE;
    const uint8_t *bytes = length == 0 ? null_message : out;
    size_t count = length == 0 ? sizeof null_message : length;
    for (size_t i = 0; i < count; i++) {
        printf(" %02X", bytes[i]);
    }
    printf("\n");
}

static ddcci_display answer(ddcci_display display, const char *what, const uint8_t *message, size_t length) {
    uint8_t out[DDCCI_OUTPUT_ROOM];
    ddcci_display_stepped step = ddcci_display_step(display, text, strlen((const char *)text), table, sizeof table,
                                                    message, length, out, sizeof out);
    printf("%s: answer %u, %s; a read gets", what, step.answer, ddcci_answer_text(step.answer));
    show_reply(out, step.length);
    if (step.sent != DDCCI_DISPLAY_SENT_NOTHING) {
        printf("  %zu bytes from %zu of text %d\n", step.count, step.offset, step.sent - 1);
    }
    act(step.display, ddcci_display_asked(step.answer, message, length));
    return step.display;
}

/* The settings that the tent sends at dawn, all in one call: brightness, contrast, which this display does not
 * have, and brightness twice more, the first time above its maximum. Each one that was accepted goes to the
 * panel, each other one is told; the answers may be looked at only if the call's own answer is 0. */
static ddcci_display set_at_dawn(ddcci_display display) {
    enum { SETTINGS = 4 };
    static const uint8_t codes[SETTINGS] = {0x10, 0x12, 0x10, 0x10};
    static const uint16_t values[SETTINGS] = {80, 50, 101, 90};
    uint8_t answers[SETTINGS];
    ddcci_display_changed set =
        ddcci_display_set_all(display, codes, SETTINGS, values, SETTINGS, answers, sizeof answers);
    printf("at dawn: answer %u, %s\n", set.answer, ddcci_answer_text(set.answer));
    for (size_t i = 0; set.answer == DDCCI_ANSWER_DONE && i < SETTINGS; i++) {
        if (answers[i] == DDCCI_ANSWER_DONE) {
            printf("  code %02X was set to %u: give it to the panel\n", codes[i], values[i]);
        } else {
            printf("  code %02X to %u: refused %u, %s\n", codes[i], values[i], answers[i],
                   ddcci_answer_text(answers[i]));
        }
    }
    printf("  code 10 is %u, saved %u\n", set.display.settings.present[0x10], set.display.settings.saved[0x10]);
    return set.display;
}

/* Writes the profile, and loads it with its value changed: a value above the maximum is refused. */
static ddcci_display keep(ddcci_display display) {
    uint8_t profile[DDCCI_DISPLAY_LONGEST_PROFILE];
    ddcci_display_written written = ddcci_display_write_profile(display, profile, sizeof profile);
    printf("profile: answer %u, bytes", written.answer);
    for (size_t i = 0; i < written.length; i++) {
        printf(" %02X", profile[i]);
    }
    profile[5] = 101;
    ddcci_display_loaded loaded = ddcci_display_load_profile(display, profile, written.length);
    printf("\nloaded with 101: answer %u at %zu\n", loaded.answer, loaded.position);
    profile[5] = 70;
    loaded = ddcci_display_load_profile(loaded.display, profile, written.length);
    printf("loaded with 70: answer %u at %zu\n", loaded.answer, loaded.position);
    return loaded.display;
}

int main(void) {
    const ddcci_display_timing timing = {2, 13340, 6000};
    const ddcci_display_declaration brightness = {0x10, 1, 1, 0, 1, 100, 50};
    ddcci_display display = ddcci_display_start(timing, text, strlen((const char *)text), 5).display;
    display = ddcci_display_declare(display, brightness).display;
    printf("again: answer %u\n", ddcci_display_declare(display, brightness).answer);

    const uint8_t get[] = {0x51, 0x82, 0x01, 0x10, 0xAC};
    const uint8_t set[] = {0x51, 0x84, 0x03, 0x10, 0x00, 0x64, 0xCC};
    const uint8_t save[] = {0x51, 0x81, 0x0C, 0xB2};
    const uint8_t write[] = {0x51, 0x85, 0xE7, 0xF4, 0x00, 0x00, 0x41, 0xE8};
    const uint8_t above[] = {0x51, 0x84, 0x03, 0x10, 0x00, 0x65, 0xCD};
    const uint8_t read[] = {0x51, 0x83, 0xF3, 0x00, 0x00, 0x4F};
    const uint8_t next[] = {0x51, 0x83, 0xF3, 0x00, 0x05, 0x4A};
    display = answer(display, "get", get, sizeof get);
    display = answer(display, "set to 100", set, sizeof set);
    display = answer(display, "set to 101", above, sizeof above);
    display = answer(display, "get", get, sizeof get);
    display = answer(display, "table write", write, sizeof write);
    display = answer(display, "text at 0", read, sizeof read);
    display = answer(display, "text at 5", next, sizeof next);
    display = answer(display, "save", save, sizeof save);
    display = set_at_dawn(display);
    display = keep(display);
    return display.settings.present[0x10] == 70 ? 0 : 1;
}
