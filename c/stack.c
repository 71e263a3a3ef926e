/* How many bytes of stack each call of the display takes.
 *
 *     cc -O2 -Wl,-z,now -Iinclude c/stack.c target/staticlib/libddcci_display.a -o stack && ./stack
 *
 * Each call is made on a stack of its own that was filled with one byte before; the lowest byte that has
 * changed afterwards tells how deep the call went. What the caller's own copies take is in it: the display
 * that is passed by value, and the place for what comes back. `-z now` has memcpy found before: found at its
 * first call, it takes 3 KB more there. */
#include <stdio.h>
#include <string.h>
#include <ucontext.h>

#include "ddcci_display.h"

enum { ROOM = 65536, FILL = 0xA5 };

static const uint8_t text[] = "(vcp(10 F4))";
static uint8_t table[DDCCI_DISPLAY_TABLE_ROOM];
static uint8_t out[DDCCI_OUTPUT_ROOM];
static uint8_t profile[DDCCI_DISPLAY_LONGEST_PROFILE];
static size_t profile_length;
static uint8_t codes[DDCCI_DISPLAY_MOST_SETTINGS];
static uint16_t values[DDCCI_DISPLAY_MOST_SETTINGS];
static uint8_t answers[DDCCI_DISPLAY_MOST_SETTINGS];
static volatile uint16_t declared;
static const uint8_t *message;
static size_t message_length;
static ddcci_display display;
static uint8_t stack[ROOM];
static ucontext_t back, there;

static void nothing(void) {}

static void start(void) {
    const ddcci_display_timing timing = {2, 13340, 6000};
    display = ddcci_display_start(timing, text, strlen((const char *)text), 5).display;
}

static void declare(void) {
    const ddcci_display_declaration brightness = {0x10, 1, 1, 0, 1, 100, 50};
    display = ddcci_display_declare(display, brightness).display;
}

static void step(void) {
    display = ddcci_display_step(display, text, strlen((const char *)text), table, sizeof table, message,
                                 message_length, out, sizeof out).display;
}

static void set_all(void) {
    display = ddcci_display_set_all(display, codes, DDCCI_DISPLAY_MOST_SETTINGS, values,
                                    DDCCI_DISPLAY_MOST_SETTINGS, answers, sizeof answers).display;
}

static void declared_count(void) {
    declared = ddcci_display_declared_count(display);
}

static void next_declared(void) {
    declared = ddcci_display_next_declared(display, 0);
}

static void write_profile(void) {
    profile_length = ddcci_display_write_profile(display, profile, sizeof profile).length;
}

static void load_profile(void) {
    display = ddcci_display_load_profile(display, profile, profile_length).display;
}

static size_t depth(void (*call)(void)) {
    memset(stack, FILL, sizeof stack);
    getcontext(&there);
    there.uc_stack.ss_sp = stack;
    there.uc_stack.ss_size = sizeof stack;
    there.uc_link = &back;
    makecontext(&there, call, 0);
    swapcontext(&back, &there);
    size_t untouched = 0;
    while (untouched < sizeof stack && stack[untouched] == FILL) untouched++;
    return sizeof stack - untouched;
}

static void write_depth(const char *what, void (*call)(void)) {
    const size_t all = depth(call);
    printf("%s: %zu\n", what, all - depth(nothing));
}

static void write_step(const char *what, const uint8_t *bytes, size_t length) {
    message = bytes;
    message_length = length;
    write_depth(what, step);
}

int main(void) {
    const uint8_t get[] = {0x51, 0x82, 0x01, 0x10, 0xAC};
    const uint8_t set[] = {0x51, 0x84, 0x03, 0x10, 0x00, 0x64, 0xCC};
    const uint8_t save[] = {0x51, 0x81, 0x0C, 0xB2};
    const uint8_t read[] = {0x51, 0x83, 0xF3, 0x00, 0x00, 0x4F};
    const uint8_t write[] = {0x51, 0x85, 0xE7, 0xF4, 0x00, 0x00, 0x41, 0xE8};
    const uint8_t read_table[] = {0x51, 0x84, 0xE2, 0xF4, 0x00, 0x00, 0xAD};
    write_depth("start", start);
    write_depth("declare", declare);
    write_step("step, get", get, sizeof get);
    write_step("step, set", set, sizeof set);
    write_step("step, save", save, sizeof save);
    write_step("step, text", read, sizeof read);
    write_step("step, table write", write, sizeof write);
    write_step("step, table read", read_table, sizeof read_table);
    memset(codes, 0x10, sizeof codes);
    memset(answers, 0xFF, sizeof answers);
    write_depth("64 settings in one call", set_all);
    write_depth("declared count", declared_count);
    write_depth("next declared", next_declared);
    write_depth("write profile", write_profile);
    write_depth("load profile", load_profile);
    return display.settings.saved[0x10] == 100 && answers[63] == DDCCI_ANSWER_DONE && table[0] == 0x41 ? 0 : 1;
}
