/* How many bytes a step of the display copies, by the message that it is given, and a call of many settings.
 *
 *     cc -O2 -Iinclude -Wl,--wrap=memcpy,--wrap=memmove c/copies.c target/staticlib/libddcci_display.a -o copies && ./copies
 *
 * The linker sends every call of memcpy and memmove here, those of the library and those of this program
 * alike. This program copies the display too, to pass it by value and to keep what comes back: so each step
 * or call of many settings is made through a pointer, once of the library's function and once of one with
 * the same parameters that copies nothing, and what is written is the difference. Copies of a few dozen
 * bytes, which the compiler makes by moves of its own, are not seen. */
#include <stdio.h>
#include <string.h>

#include "ddcci_display.h"

typedef ddcci_display_stepped stepping(ddcci_display, const uint8_t *, size_t, uint8_t *, size_t,
                                       const uint8_t *, size_t, uint8_t *, size_t);
typedef ddcci_display_changed setting(ddcci_display, const uint8_t *, size_t, const uint16_t *, size_t, uint8_t *,
                                      size_t);

static const uint8_t text[] = "(vcp(10 F4))";
static uint8_t table[DDCCI_DISPLAY_TABLE_ROOM];
static uint8_t out[DDCCI_OUTPUT_ROOM];
static uint8_t codes[DDCCI_DISPLAY_MOST_SETTINGS];
static uint16_t values[DDCCI_DISPLAY_MOST_SETTINGS];
static uint8_t answers[DDCCI_DISPLAY_MOST_SETTINGS];
static size_t copied;

void *__real_memcpy(void *to, const void *from, size_t n);
void *__real_memmove(void *to, const void *from, size_t n);

void *__wrap_memcpy(void *to, const void *from, size_t n) {
    copied += n;
    return __real_memcpy(to, from, n);
}

void *__wrap_memmove(void *to, const void *from, size_t n) {
    copied += n;
    return __real_memmove(to, from, n);
}

static ddcci_display_stepped nothing(ddcci_display display, const uint8_t *t, size_t tn, uint8_t *b, size_t bn,
                                     const uint8_t *m, size_t mn, uint8_t *o, size_t on) {
    ddcci_display_stepped stepped;
    stepped.answer = (uint8_t)(display.fragment_size + (t == b) + (m == o) + tn + bn + mn + on);
    return stepped;
}

/* The one place that calls a step. */
static __attribute__((noinline)) size_t copied_by(stepping *volatile step, const ddcci_display *display,
                                                  ddcci_display_stepped *after, const uint8_t *message,
                                                  size_t length) {
    copied = 0;
    *after = step(*display, text, strlen((const char *)text), table, sizeof table, message, length, out,
                  sizeof out);
    return copied;
}

static ddcci_display write_copies(const char *what, ddcci_display display, const uint8_t *message, size_t length) {
    static ddcci_display_stepped after;
    const size_t callers = copied_by(nothing, &display, &after, message, length);
    const size_t all = copied_by(ddcci_display_step, &display, &after, message, length);
    printf("%s: answer %u, %zu\n", what, after.answer, all - callers);
    return after.display;
}

static ddcci_display_changed set_nothing(ddcci_display display, const uint8_t *c, size_t cn, const uint16_t *v,
                                         size_t vn, uint8_t *a, size_t an) {
    ddcci_display_changed changed;
    changed.answer = (uint8_t)(display.fragment_size + (c == a) + (v == values) + cn + vn + an);
    return changed;
}

/* The one place that calls for many settings. */
static __attribute__((noinline)) size_t copied_by_setting(setting *volatile set, const ddcci_display *display,
                                                          ddcci_display_changed *after, size_t count, size_t room) {
    copied = 0;
    *after = set(*display, codes, count, values, count, answers, room);
    return copied;
}

static ddcci_display write_setting(const char *what, ddcci_display display, size_t count, size_t room) {
    static ddcci_display_changed after;
    const size_t callers = copied_by_setting(set_nothing, &display, &after, count, room);
    const size_t all = copied_by_setting(ddcci_display_set_all, &display, &after, count, room);
    printf("%s: answer %u, %zu\n", what, after.answer, all - callers);
    return after.display;
}

/* Brightness 37 to 100, as often as a call takes; then one setting; then one without room for its answer. */
static ddcci_display write_settings(ddcci_display display) {
    for (size_t i = 0; i < DDCCI_DISPLAY_MOST_SETTINGS; i++) {
        codes[i] = 0x10;
        values[i] = (uint16_t)(37 + i);
    }
    display = write_setting("64 settings in one call", display, DDCCI_DISPLAY_MOST_SETTINGS, sizeof answers);
    display = write_setting("one setting in one call", display, 1, sizeof answers);
    return write_setting("one setting, no room for its answer", display, 1, 0);
}

int main(void) {
    const ddcci_display_timing timing = {2, 13340, 6000};
    const ddcci_display_declaration brightness = {0x10, 1, 1, 0, 1, 100, 50};
    ddcci_display display = ddcci_display_start(timing, text, strlen((const char *)text), 5).display;
    display = ddcci_display_declare(display, brightness).display;

    const uint8_t get[] = {0x51, 0x82, 0x01, 0x10, 0xAC};
    const uint8_t undeclared[] = {0x51, 0x82, 0x01, 0x12, 0xAE};
    const uint8_t set[] = {0x51, 0x84, 0x03, 0x10, 0x00, 0x64, 0xCC};
    const uint8_t above[] = {0x51, 0x84, 0x03, 0x10, 0x00, 0x65, 0xCD};
    const uint8_t not_allowed[] = {0x51, 0x84, 0x03, 0x12, 0x00, 0x01, 0xAB};
    const uint8_t save[] = {0x51, 0x81, 0x0C, 0xB2};
    const uint8_t ask_timing[] = {0x51, 0x81, 0x07, 0xB9};
    const uint8_t read[] = {0x51, 0x83, 0xF3, 0x00, 0x00, 0x4F};
    const uint8_t write[] = {0x51, 0x85, 0xE7, 0xF4, 0x00, 0x00, 0x41, 0xE8};
    const uint8_t read_table[] = {0x51, 0x84, 0xE2, 0xF4, 0x00, 0x00, 0xAD};
    const uint8_t refused[] = {0x51, 0x82, 0x01, 0x10, 0x00};
    display = write_copies("get", display, get, sizeof get);
    display = write_copies("get of an undeclared code", display, undeclared, sizeof undeclared);
    display = write_copies("set", display, set, sizeof set);
    display = write_copies("set above the maximum", display, above, sizeof above);
    display = write_copies("set of an undeclared code", display, not_allowed, sizeof not_allowed);
    display = write_copies("save", display, save, sizeof save);
    display = write_copies("timing", display, ask_timing, sizeof ask_timing);
    display = write_copies("text", display, read, sizeof read);
    display = write_copies("table write", display, write, sizeof write);
    display = write_copies("table read", display, read_table, sizeof read_table);
    display = write_copies("wrong checksum", display, refused, sizeof refused);
    display = write_settings(display);
    return display.settings.saved[0x10] == 100 && display.settings.present[0x10] == 37 && table[0] == 0x41 ? 0 : 1;
}
