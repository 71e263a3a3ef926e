/* What a C program does with Paneknoll: build a request, read a reply, read a capabilities string, run a
 * transfer, check a call list, compare two profiles.
 *
 *     cc -Iinclude c/example.c target/staticlib/libddcci.a -o example && ./example
 */
#include <stdio.h>
#include <string.h>

#include "ddcci.h"

static void show(const char *what, const uint8_t *bytes, size_t length) {
    printf("%s:", what);
    for (size_t i = 0; i < length; i++) {
        printf(" %02X", bytes[i]);
    }
    printf("\n");
}

/* Brightness to 100, and the reply to a Get of it. */
static void messages(void) {
    uint8_t out[DDCCI_OUTPUT_ROOM];
    ddcci_built set = ddcci_build_set(0x10, 100, out, sizeof out);
    show("set brightness to 100", out, set.length);

    const uint8_t value[] = {0x6E, 0x88, 0x02, 0x00, 0x10, 0x00, 0x00, 0x64, 0x00, 0x32, 0xF2};
    ddcci_reply_read reply = ddcci_read_reply(value, sizeof value);
    printf("answer %u: code %02X is %u of %u\n", reply.answer, reply.code, reply.second, reply.first);

    ddcci_request_read cut = ddcci_read_request(out, set.length - 1);
    printf("cut by a byte: answer %u, %s\n", cut.answer, ddcci_answer_text(cut.answer));
}

/* The words of a capabilities string, of which there may be none. */
static void capabilities(const char *text) {
    static uint16_t starts[DDCCI_MOST_NODES], lengths[DDCCI_MOST_NODES], parents[DDCCI_MOST_NODES];
    static uint8_t groups[DDCCI_MOST_NODES];
    ddcci_reading read = ddcci_read_capabilities((const uint8_t *)text, strlen(text), starts, DDCCI_MOST_NODES,
                                                 lengths, DDCCI_MOST_NODES, parents, DDCCI_MOST_NODES, groups,
                                                 DDCCI_MOST_NODES);
    if (read.answer != DDCCI_ANSWER_DONE) {
        printf("%s: refused %u at %zu, %s\n", text, read.answer, read.position, ddcci_answer_text(read.answer));
        return;
    }
    printf("%s: %zu nodes", text, read.nodes);
    for (size_t i = 0; i < read.nodes; i++) {
        printf(" %.*s", lengths[i], text + starts[i]);
    }
    printf("\n");
}

/* Sends a request and returns how many bytes came back: your I2C. Here the display is played, with a text of
 * 12 bytes in fragments of 5; every third reply is lost. */
static size_t exchange(const uint8_t *request, size_t length, uint8_t *reply) {
    static const uint8_t text[] = "(vcp(10 12))";
    static unsigned exchanges;
    ddcci_request_read asked = ddcci_read_request(request, length);
    size_t at = asked.word;
    exchanges++;
    if (asked.command != DDCCI_COMMAND_TEXT || at > 12 || exchanges % 3 == 0) {
        return 0;
    }
    size_t count = 12 - at < 5 ? 12 - at : 5;
    return ddcci_build_text_fragment((uint16_t)at, text + at, count, reply, DDCCI_OUTPUT_ROOM).length;
}

static void transfer(void) {
    /* README begins */
    static uint8_t buffer[4096];
    uint8_t out[DDCCI_OUTPUT_ROOM], reply[DDCCI_LONGEST_MESSAGE];
    ddcci_transfer t = ddcci_begin(DDCCI_CAPABILITIES, buffer, sizeof buffer, 1000);
    while (DDCCI_STATE(t) == DDCCI_RUNNING) {
        ddcci_built request = ddcci_request(t, out, sizeof out);
        size_t came = exchange(out, request.length, reply);       /* your I2C; 0 if nothing came */
        t = ddcci_receive(t, buffer, sizeof buffer, reply, came); /* a refusal only counts: ask again */
    }
    if (DDCCI_STATE(t) == DDCCI_DONE) { /* only then the text is whole */
        printf("%.*s\n", (int)t.offset, (const char *)buffer);
    } else {
        printf("no text; the last answer: %s\n", ddcci_answer_text(t.answer));
    }
    /* README ends */
    printf("in %u exchanges\n", t.count);
}

/* The tokens of a call list in list order, and which of its entries calls household 2031. */
static void call_list(const uint8_t *list, size_t length) {
    ddcci_call_list checked = ddcci_check_call_list(list, length);
    if (checked.answer != DDCCI_ANSWER_DONE) { /* call nobody by it */
        printf("call list: refused %u at %zu, %s\n", checked.answer, checked.position,
               ddcci_answer_text(checked.answer));
        return;
    }
    printf("call list: tokens");
    for (size_t i = 0; i < checked.entries; i++) {
        printf(" %lu", (unsigned long)ddcci_call_list_entry(list, length, i).token);
    }
    ddcci_household found = ddcci_find_household(list, length, 2031);
    if (found.there) {
        printf("; household 2031 is in entry %zu\n", found.number);
    } else {
        printf("; household 2031 is not called\n");
    }
}

/* Token 102 for household 2000 and token 101 for household 2031; the first alone; then household 2000 twice. */
static void call_lists(void) {
    uint8_t list[] = {0x0A, 0, 0x20, 0, 102, 0, 0, 0, 0xD0, 0x07, 0, 0,
                      0x0A, 0, 0x20, 0, 101, 0, 0, 0, 0xEF, 0x07, 0, 0};
    call_list(list, sizeof list);
    call_list(list, 12);
    list[20] = 0xD0;
    call_list(list, sizeof list);
}

/* A value of a compared profile, or "-" where the profile does not have the code. */
static void show_value(uint32_t value) {
    if (value == DDCCI_ABSENT) {
        printf(" -");
    } else {
        printf(" %lu", (unsigned long)value);
    }
}

/* What differs between two profiles: a line for each code, with both values. */
static void compare(const uint8_t *first, size_t first_length, const uint8_t *second, size_t second_length) {
    static uint8_t codes[DDCCI_MOST_DIFFERENCES];
    static uint32_t first_values[DDCCI_MOST_DIFFERENCES], second_values[DDCCI_MOST_DIFFERENCES];
    ddcci_compared compared = ddcci_compare_profiles(first, first_length, second, second_length, codes,
                                                     DDCCI_MOST_DIFFERENCES, first_values, DDCCI_MOST_DIFFERENCES,
                                                     second_values, DDCCI_MOST_DIFFERENCES);
    if (compared.answer != DDCCI_ANSWER_DONE) {
        printf("profile %u: refused %u at %zu, %s\n", compared.profile, compared.answer, compared.position,
               ddcci_answer_text(compared.answer));
        return;
    }
    printf("profiles: %zu differences\n", compared.differences);
    for (size_t i = 0; i < compared.differences; i++) {
        printf("  %02X", codes[i]);
        show_value(first_values[i]);
        show_value(second_values[i]);
        printf("\n");
    }
}

/* Brightness 50 and contrast 80; brightness 70 and input 15; then brightness twice. */
static void profiles(void) {
    const uint8_t first[] = {5, 0, 1, 0, 0x10, 50, 0, 5, 0, 1, 0, 0x12, 80, 0};
    uint8_t second[] = {5, 0, 1, 0, 0x10, 70, 0, 5, 0, 1, 0, 0x60, 15, 0};
    compare(first, sizeof first, second, sizeof second);
    compare(first, sizeof first, first, sizeof first);
    second[11] = 0x10;
    compare(first, sizeof first, second, sizeof second);
}

int main(void) {
    messages();
    capabilities("(vcp(10 14(05 08)))");
    capabilities("()");
    capabilities("(a(b)(c))");
    transfer();
    call_lists();
    profiles();
    return 0;
}
