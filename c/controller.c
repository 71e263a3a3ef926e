/* A display behind an I2C slave, as docs/CONTROLLER.md describes it, with a host that is played below.
 *
 *     cc -Iinclude c/controller.c target/staticlib/libddcci_display.a -o controller && ./controller
 */
#include <stdio.h>

#include "ddcci_display.h"

static const uint8_t text[] = "(vcp(01 10 F4))";
static uint8_t kept_profile[DDCCI_DISPLAY_LONGEST_PROFILE]; /* yours: flash memory */
static size_t kept_length;

static void set_panel(uint8_t code, uint16_t value) {
    printf("  panel: code %02X is %u\n", code, value);
}

static void show_list(const uint8_t *list, size_t length) {
    printf("  panel: %.*s\n", (int)length, (const char *)list);
}

/* docs/CONTROLLER.md begins */
static ddcci_display display;
static uint8_t table[DDCCI_DISPLAY_TABLE_ROOM];
static uint8_t message[DDCCI_DISPLAY_MESSAGE_ROOM]; /* one byte more than the longest message */
static uint8_t reply[DDCCI_OUTPUT_ROOM];
static size_t message_length, reply_length, reply_at;

/* The panel gets what the settings hold; a momentary code holds nothing. */
static void set_whole_panel(void) {
    uint16_t code = ddcci_display_next_declared(display, 0);
    while (code != DDCCI_DISPLAY_NO_CODE) {
        if (!(display.settings.momentary[code / 64] >> (code % 64) & 1)) {
            set_panel((uint8_t)code, display.settings.present[code]);
        }
        code = ddcci_display_next_declared(display, (uint16_t)(code + 1));
    }
}

/* At power-up. A profile that is refused changes nothing. */
static void start(void) {
    static const ddcci_display_timing timing = {0, 0, 0};
    static const ddcci_display_declaration brightness = {0x10, 1, 1, 0, 1, 100, 50};
    static const ddcci_display_declaration degauss = {0x01, 0, 1, 1, 0, 1, 0}; /* momentary: write-only */
    display = ddcci_display_start(timing, text, sizeof text - 1, 32).display;
    display = ddcci_display_declare(display, brightness).display;
    display = ddcci_display_declare(display, degauss).display;
    display = ddcci_display_load_profile(display, kept_profile, kept_length).display;
    set_whole_panel();
}

/* The panel, the list and the flash memory follow what a message did. */
static void follow(ddcci_display_request asked) {
    switch (asked.command) {
    case DDCCI_COMMAND_SET:
        set_panel(asked.code, asked.value);
        break;
    case DDCCI_COMMAND_TABLE_WRITE:
        show_list(table, display.table.length);
        break;
    case DDCCI_COMMAND_SAVE:
        kept_length = ddcci_display_write_profile(display, kept_profile, sizeof kept_profile).length;
        break;
    default:
        break;
    }
}

/* The host writes to address 37: each byte behind the address, then the stop. */
static void byte_came(uint8_t byte) {
    if (message_length < sizeof message) message[message_length++] = byte;
}

static void write_ended(void) {
    ddcci_display_stepped step;
    if (message_length == 0) return; /* a probe of the address */
    step = ddcci_display_step(display, text, sizeof text - 1, table, sizeof table, message, message_length,
                              reply, sizeof reply);
    display = step.display;
    reply_length = step.length;
    reply_at = 0;
    follow(ddcci_display_asked(step.answer, message, message_length));
    message_length = 0;
}

/* The host reads from address 37: the next byte, then the stop. */
static uint8_t byte_to_send(void) {
    static const uint8_t null_message[] = DDCCI_DISPLAY_NULL_MESSAGE;
    const uint8_t *bytes = reply_length == 0 ? null_message : reply;
    size_t length = reply_length == 0 ? sizeof null_message : reply_length;
    return reply_at < length ? bytes[reply_at++] : 0;
}

static void read_ended(void) {
    reply_length = 0; /* the reply was given: what is read next is the null message */
    reply_at = 0;
}
/* docs/CONTROLLER.md ends */

/* The host: writes bytes, and reads a few. */
static void host_writes(const char *what, const uint8_t *bytes, size_t length) {
    printf("%s\n", what);
    for (size_t i = 0; i < length; i++) byte_came(bytes[i]);
    write_ended();
}

static void host_reads(size_t length) {
    printf("  read:");
    for (size_t i = 0; i < length; i++) printf(" %02X", byte_to_send());
    printf("\n");
    read_ended();
}

int main(void) {
    static const uint8_t get[] = {0x51, 0x82, 0x01, 0x10, 0xAC};
    static const uint8_t set[] = {0x51, 0x84, 0x03, 0x10, 0x00, 0x64, 0xCC};
    static const uint8_t degauss[] = {0x51, 0x84, 0x03, 0x01, 0x00, 0x01, 0xB8};
    static const uint8_t save[] = {0x51, 0x81, 0x0C, 0xB2};
    static const uint8_t write[] = {0x51, 0x85, 0xE7, 0xF4, 0x00, 0x00, 0x41, 0xE8};
    static const uint8_t power[] = {0x51, 0x82, 0x09, 0x00, 0xB4};
    printf("power-up\n");
    start();
    host_reads(3);
    host_writes("get brightness", get, sizeof get);
    host_writes("probe", get, 0);
    host_reads(13);
    host_reads(5);
    host_writes("set brightness to 100", set, sizeof set);
    host_reads(3);
    host_writes("degauss", degauss, sizeof degauss);
    host_writes("write the list", write, sizeof write);
    host_writes("a command that is not in the table", power, sizeof power);
    host_reads(3);
    host_writes("save", save, sizeof save);
    printf("power-up\n");
    start();
    host_writes("get brightness", get, sizeof get);
    host_reads(11);
    return 0;
}
