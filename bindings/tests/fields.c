/* The fields of what hmc.h shows, by their names: of each entry of a session that takes the steps of
 * its case, with the line of that entry, and at the end of each direction, host and cube, with the
 * final lines. fields.py compares the two. Without a case the layout, the constants, packets of
 * different numbers, spelled and read, and faults. Usage: fields [CASE ..] */
#include "hmc.h"

#include <stddef.h>
#include <stdio.h>
#include <stdlib.h>
#include <string.h>

enum { MOST_FLITS = 17, RD_RS = 56, WR32 = 9 };

static const hmc_unit_t units[2] = {{HMC_REVERSE, 0, 0}, {HMC_STAMP, 0, 1}};

static void fail(const char *why) {
    fprintf(stderr, "%s\n", why);
    exit(1);
}

static void number(const char *name, unsigned long long value) {
    printf(" %s=%llu", name, value);
}

static void hex(const char *name, const uint8_t *bytes, size_t length) {
    printf(" %s=", name);
    for (size_t i = 0; i < length; i++)
        printf("%02x", bytes[i]);
}

/* The bytes that count; the others are 0. */
static void part(const char *name, const uint8_t *bytes, size_t length) {
    if (length > 256)
        fail("more bytes than there is room for");
    for (size_t i = length; i < 256; i++)
        if (bytes[i] != 0)
            fail("a byte behind those that count isn't 0");
    hex(name, bytes, length);
}

#define OF_ENTRY(field) number(#field, e.field)

static void show_entry(hmc_session *s) {
    hmc_entry_t e;
    if (hmc_entry(s, &e) != HMC_OK)
        fail("no entry");
    printf("entry");
    OF_ENTRY(address);
    OF_ENTRY(value);
    OF_ENTRY(length);
    OF_ENTRY(returned_length);
    OF_ENTRY(tag);
    OF_ENTRY(kind);
    OF_ENTRY(a);
    OF_ENTRY(b);
    OF_ENTRY(c);
    OF_ENTRY(host);
    OF_ENTRY(command);
    OF_ENTRY(cube);
    OF_ENTRY(answer);
    OF_ENTRY(cause);
    OF_ENTRY(step);
    OF_ENTRY(what);
    OF_ENTRY(outcome);
    OF_ENTRY(flag);
    OF_ENTRY(poisoned);
    hex("flit", e.flit, sizeof e.flit);
    part("payload", e.payload, e.length);
    part("returned", e.returned, e.returned_length);
    printf("\n");
}

/* A line, which ends with a line feed. */
static void show_line(const uint8_t *line, size_t length) {
    printf("line ");
    fwrite(line, 1, length, stdout);
}

static void show_tokens(hmc_session *s, uint8_t direction) {
    hmc_tokens_t t;
    if (hmc_tokens(s, direction, &t) == HMC_OK)
        printf("tokens number=%u held=%u transit=%u used=%u due=%u returning=%u\n", direction,
               t.held, t.transit, t.used, t.due, t.returning);
}

static void show_counters(hmc_session *s, uint8_t direction) {
    hmc_counters_t c;
    if (hmc_counters(s, direction, &c) == HMC_OK)
        printf("counters number=%u sent=%u landed=%u changed=%u accepted=%u repeats=%u aborts=%u\n",
               direction, c.sent, c.landed, c.changed, c.accepted, c.repeats, c.aborts);
}

static void show_ends(hmc_session *s) {
    hmc_host_t h;
    hmc_cube_t c;
    for (uint8_t i = 0; i < 64; i++)
        show_tokens(s, i);
    for (uint8_t i = 0; i < 64; i++)
        show_counters(s, i);
    for (uint8_t i = 0; i < 8; i++)
        if (hmc_host(s, i, &h) == HMC_OK)
            printf("host number=%u given=%u taken=%u out=%u\n", i, h.given, h.taken, h.out);
    for (uint8_t i = 0; i < 8; i++)
        if (hmc_cube(s, i, &c) == HMC_OK)
            printf("cube number=%u executed=%u dropped=%u\n", i, c.executed, c.dropped);
}

static void show_final_lines(hmc_session *s) {
    uint8_t line[2048];
    size_t length;
    for (uint32_t i = 0; hmc_final_line(s, i, line, sizeof line, &length) == HMC_OK; i++)
        show_line(line, length);
}

static void take(const char *path) {
    static uint8_t text[1 << 22];
    uint8_t line[2048], status = HMC_OK;
    size_t length;
    hmc_session s = {0};
    FILE *file = fopen(path, "rb");
    if (!file)
        fail(path);
    length = fread(text, 1, sizeof text, file);
    fclose(file);
    if (hmc_open_with(text, length, units, 2, &s) != HMC_OK)
        return;
    for (uint8_t host = 0; status == HMC_OK; host++)
        status = hmc_finish(&s, host);
    printf("case %s\n", path);
    while ((status = hmc_next(&s)) == HMC_OK || status == HMC_PASSED) {
        if (hmc_line(&s, line, sizeof line, &length) != HMC_OK)
            fail("no line");
        show_entry(&s);
        show_line(line, length);
        if (status == HMC_PASSED)
            break;
    }
    show_ends(&s);
    show_final_lines(&s);
    hmc_close(&s);
}

#define OF_PACKET(field) number(#field, p->field)

static void show_packet(const char *word, const hmc_packet_t *p) {
    printf("%s", word);
    OF_PACKET(address);
    OF_PACKET(length);
    OF_PACKET(tag);
    OF_PACKET(frp);
    OF_PACKET(rrp);
    OF_PACKET(command);
    OF_PACKET(cube);
    OF_PACKET(slid);
    OF_PACKET(errstat);
    OF_PACKET(rtc);
    OF_PACKET(seq);
    OF_PACKET(flag);
    OF_PACKET(poisoned);
    part("payload", p->payload, p->length);
    printf("\n");
}

/* The packet, its flits, and what these are read as. */
static void spell(hmc_packet_t *p) {
    uint8_t flits[MOST_FLITS * 16];
    size_t count;
    hmc_packet_t read;
    for (uint32_t i = 0; i < p->length; i++)
        p->payload[i] = (uint8_t)(i + 1);
    show_packet("spelled", p);
    if (hmc_spell(p, false, flits, MOST_FLITS, &count) != HMC_OK)
        fail("hmc_spell");
    printf("flits");
    hex("bytes", flits, count * 16);
    printf("\n");
    if (hmc_read(flits, count, false, &read) != HMC_OK)
        fail("hmc_read");
    show_packet("read", &read);
}

static void spell_packets(void) {
    hmc_packet_t request = {.address = 0x123456780, .length = 32, .tag = 1234, .frp = 301,
                            .rrp = 402, .command = WR32, .cube = 5, .slid = 6, .rtc = 3,
                            .seq = 4, .poisoned = true};
    hmc_packet_t response = {.length = 16, .tag = 2001, .frp = 77, .rrp = 500, .command = RD_RS,
                             .cube = 2, .slid = 4, .errstat = 0, .rtc = 7, .seq = 1,
                             .flag = true};
    hmc_packet_t error = {.tag = 99, .frp = 410, .rrp = 311, .command = 62, .cube = 1, .slid = 3,
                          .errstat = 6, .rtc = 2, .seq = 5};
    spell(&request);
    spell(&response);
    spell(&error);
}

/* The first fault of a text, by its numbers and its word. */
static void show_fault(const char *text) {
    hmc_fault_t fault;
    if (hmc_fault((const uint8_t *)text, strlen(text), &fault) != HMC_OK)
        fail("a case");
    printf("fault line=%u section=%u word=%.16s\n", fault.line, fault.section, fault.word);
}

#define CUBE "[[cubes]]\nvault_bits = 0\nbank_bits = 0\nrows = 4\nqueue = 4\n"
#define LINK "[[links]]\na = 'h0'\nb = 'c0.0'\nline = 8\ntokens = 34\nretry = 64\noutput = 4\n"

static void show_faults(void) {
    show_fault("profile = 1\nscript = ''\nschedule = ''\n" CUBE "[[cubes]]\nrows = 4\n" LINK);
    show_fault("profile = 1\nscript = '''\n\n\n0 rd17 0 0\n'''\nschedule = ''\n" CUBE LINK);
    show_fault("profile = 1\nscript = ''\nschedule = '''\ngive 0\ngive 1\n'''\n" CUBE LINK);
}

#define FIELD(type, field) \
    printf("%s %s %zu %zu\n", #type, #field, offsetof(hmc_##type##_t, field), \
           sizeof(((hmc_##type##_t *)0)->field))

/* The layout of what other languages read: the place and the size of each field. */
static void show_layout(void) {
    FIELD(unit, kind);
    FIELD(unit, cube);
    FIELD(unit, code);
    FIELD(entry, address);
    FIELD(entry, value);
    FIELD(entry, length);
    FIELD(entry, returned_length);
    FIELD(entry, tag);
    FIELD(entry, kind);
    FIELD(entry, a);
    FIELD(entry, b);
    FIELD(entry, c);
    FIELD(entry, host);
    FIELD(entry, command);
    FIELD(entry, cube);
    FIELD(entry, answer);
    FIELD(entry, cause);
    FIELD(entry, step);
    FIELD(entry, what);
    FIELD(entry, outcome);
    FIELD(entry, flag);
    FIELD(entry, poisoned);
    FIELD(entry, flit);
    FIELD(entry, payload);
    FIELD(entry, returned);
    printf("unit - %zu\nentry - %zu\n", sizeof(hmc_unit_t), sizeof(hmc_entry_t));
}

#define CONSTANT(name) printf("constant %s %d\n", #name, HMC_##name)

static void show_statuses(void) {
    CONSTANT(OK);
    CONSTANT(MEMORY);
    CONSTANT(BAD);
    CONSTANT(PASSED);
    CONSTANT(NONE);
    CONSTANT(CLOSED);
    CONSTANT(WAITS);
    CONSTANT(OVER);
    CONSTANT(NO_HOST);
    CONSTANT(NO_CUBE);
    CONSTANT(FINISHED);
    CONSTANT(FULL);
    CONSTANT(BAD_LENGTH);
    CONSTANT(BAD_COMMAND);
    CONSTANT(BAD_RESERVED);
    CONSTANT(BAD_CRC);
    CONSTANT(UNLAWFUL);
}

static void show_steps(void) {
    CONSTANT(GIVE);
    CONSTANT(SEND);
    CONSTANT(LAND);
    CONSTANT(SHIFT);
    CONSTANT(SPREAD);
    CONSTANT(BANK);
    CONSTANT(REGISTERS);
    CONSTANT(LIFT);
    CONSTANT(TAKE);
    CONSTANT(THROUGH);
    CONSTANT(UNLOCK);
    CONSTANT(RETIRE);
}

static void show_kinds(void) {
    CONSTANT(GAVE);
    CONSTANT(SENT);
    CONSTANT(LANDED);
    CONSTANT(SHIFTED);
    CONSTANT(DROPPED);
    CONSTANT(SPREAD_TO);
    CONSTANT(EXECUTED);
    CONSTANT(LIFTED);
    CONSTANT(TOOK);
    CONSTANT(DISCARDED);
    CONSTANT(WENT_THROUGH);
    CONSTANT(UNLOCKED);
    CONSTANT(RETIRED);
    CONSTANT(LANDING_PASSED);
    CONSTANT(IDLE);
    CONSTANT(REGISTERS_OF);
    CONSTANT(NO_TAG);
}

int main(int count, char **words) {
    if (count < 2) {
        show_layout();
        show_statuses();
        show_steps();
        show_kinds();
        spell_packets();
        show_faults();
        return 0;
    }
    for (int i = 1; i < count; i++)
        take(words[i]);
    return 0;
}
