/* Drives the library: misuse of each call, and the example write-then-read, by numbers and in
 * words. Prints its report. Usage: test CASE, a case with one wr16 and one rd16 of the
 * same bytes. Ends with 1 and a line where a call answers otherwise than hmc.h says. */
#include "hmc.h"

#include <stdio.h>
#include <stdlib.h>
#include <string.h>

#define WR16 8
#define RD16 48
#define ROUNDS 95
#define STEPS 1140
#define FINALS 8

static const uint8_t no_mask[16] = {0};
static const hmc_unit_t no_unit = {0, 0, 0};
static const uint8_t bytes[16] = {0, 1, 2, 3, 4, 5, 6, 7, 8, 9, 10, 11, 12, 13, 14, 15};
static const char write_line[] = "0 wr16 0 0x40 000102030405060708090a0b0c0d0e0f\n";
static const char read_line[] = "0 rd16 0 0x40\n";

static uint8_t text[65536];
static size_t length;

static void want(long long got, long long wanted, const char *call) {
    if (got != wanted) {
        fprintf(stderr, "%s: %lld and not %lld\n", call, got, wanted);
        exit(1);
    }
}

static size_t read_file(const char *name, uint8_t *into, size_t room) {
    FILE *file = fopen(name, "rb");
    if (!file) {
        fprintf(stderr, "%s can't be read\n", name);
        exit(2);
    }
    size_t count = fread(into, 1, room, file);
    fclose(file);
    return count;
}

static uint8_t ask(hmc_session *s, const char *words) {
    return hmc_ask(s, (const uint8_t *)words, strlen(words));
}

static uint8_t lay(hmc_session *s, const char *words) {
    return hmc_lay(s, (const uint8_t *)words, strlen(words));
}

/* The case with another text in place of its requests and its steps. */
static size_t without(const char *part, uint8_t *into) {
    char *begin = strstr((char *)text, part), *end;
    if (!begin)
        exit(2);
    begin = strstr(begin, "'''") + 4;
    end = strstr(begin, "'''");
    size_t front = (size_t)(begin - (char *)text), back = strlen(end);
    memcpy(into, text, front);
    memcpy(into + front, end, back);
    return front + back;
}

static void closed_steps(hmc_session *s) {
    uint32_t steps = 1;
    hmc_fault_t fault;
    want(hmc_step(s, HMC_GIVE, 0, 0, 0, no_mask), HMC_CLOSED, "step, closed");
    want(hmc_request(s, 0, false, false, RD16, 0, 0, bytes, 0), HMC_CLOSED, "request, closed");
    want(ask(s, read_line), HMC_CLOSED, "ask, closed");
    want(lay(s, "round 1"), HMC_CLOSED, "lay, closed");
    want(hmc_next(s), HMC_CLOSED, "next, closed");
    want(hmc_run(s, 1, 0, &steps), HMC_CLOSED, "run, closed");
    want(steps, 0, "run, closed: steps");
    want(hmc_finish(s, 0), HMC_CLOSED, "finish, closed");
    want(hmc_ask_fault(s, bytes, 1, &fault), HMC_CLOSED, "ask_fault, closed");
    want(hmc_lay_fault(s, bytes, 1, &fault), HMC_CLOSED, "lay_fault, closed");
}

static void closed_values(hmc_session *s) {
    hmc_entry_t entry;
    hmc_tokens_t tokens;
    hmc_counters_t counters;
    hmc_host_t host;
    hmc_cube_t cube;
    uint8_t line[2048], block[16];
    uint32_t number;
    uint64_t bound;
    bool drained;
    size_t written = 1;
    want(hmc_entry(s, &entry), HMC_CLOSED, "entry, closed");
    want(hmc_line(s, line, sizeof line, &written), HMC_CLOSED, "line, closed");
    want(written, 0, "line, closed: written");
    written = 1;
    want(hmc_final_line(s, 0, line, sizeof line, &written), HMC_CLOSED, "final_line, closed");
    want(written, 0, "final_line, closed: written");
    written = 1;
    want(hmc_tape_script(s, line, sizeof line, &written), HMC_CLOSED, "tape_script, closed");
    want(written, 0, "tape_script, closed: length");
    want(hmc_tape_schedule(s, line, sizeof line, &written), HMC_CLOSED, "tape_schedule, closed");
    want(hmc_block(s, 0, 0, block), HMC_CLOSED, "block, closed");
    want(hmc_register(s, 0, 0, &number), HMC_CLOSED, "register, closed");
    want(hmc_tokens(s, 0, &tokens), HMC_CLOSED, "tokens, closed");
    want(hmc_counters(s, 0, &counters), HMC_CLOSED, "counters, closed");
    want(hmc_host(s, 0, &host), HMC_CLOSED, "host, closed");
    want(hmc_cube(s, 0, &cube), HMC_CLOSED, "cube, closed");
    want(hmc_drained(s, &drained), HMC_CLOSED, "drained, closed");
    want(hmc_under_way(s, &number), HMC_CLOSED, "under_way, closed");
    want(hmc_drain_bound(s, &bound), HMC_CLOSED, "drain_bound, closed");
}

/* Logic units that are none, in a handle that stays closed. */
static void no_units(hmc_session *s) {
    static const hmc_unit_t nine[9] = {{0}};
    static const hmc_unit_t none[3] = {{2, 0, 0}, {HMC_STAMP, 8, 0}, {HMC_REVERSE, 0, 8}};
    want(hmc_open_with(text, length, nine, 9, s), HMC_NONE, "nine units");
    uint8_t out;
    size_t written = 1;
    uint32_t number = 7;
    for (int i = 0; i < 3; i++) {
        want(hmc_open_with(text, length, &none[i], 1, s), HMC_NONE, "a unit that is none");
        want(hmc_open_taped(text, length, &none[i], 1, s), HMC_NONE, "the same, with a tape");
    }
    want(hmc_run_case(text, length, nine, 9, &out, 1, &written), HMC_NONE, "run_case, nine units");
    want(written, 0, "run_case, nine units: length");
    want(hmc_run_case(text, 0, nine, 8, &out, 0, &written), HMC_BAD, "run_case of nothing");
    want(hmc_check(text, length, &out, 0, nine, 9, &number), HMC_NONE, "check, nine units");
    want(hmc_check(text, 0, &out, 0, nine, 8, &number), HMC_BAD, "check by no case");
    want(number, 7, "check by no case: number");
    want(hmc_open_with((const uint8_t *)"no case", 7, nine, 8, s), HMC_BAD, "units, and no case");
    want(s->at != NULL, 0, "units that are none: the handle");
}

static void closed_handle(void) {
    hmc_session s = {0};
    closed_steps(&s);
    closed_values(&s);
    want(hmc_open((const uint8_t *)"no case", 7, &s), HMC_BAD, "open of no case");
    want(s.at != NULL, 0, "open of no case: the handle");
    no_units(&s);
    hmc_close(&s);
    hmc_close(&s);
    want(s.at != NULL, 0, "close: the handle");
}

static void misuse_of_steps(hmc_session *s) {
    uint32_t steps;
    want(hmc_step(s, HMC_GIVE, 0, 0, 0, no_mask), HMC_WAITS, "give of nothing");
    want(hmc_step(s, HMC_GIVE, 1, 0, 0, no_mask), HMC_NONE, "give of host 1");
    want(hmc_step(s, 12, 0, 0, 0, no_mask), HMC_NONE, "a step of kind 12");
    want(hmc_step(s, HMC_BANK, 0, 0, 1, no_mask), HMC_NONE, "bank 1");
    want(hmc_next(s), HMC_NONE, "next of none");
    want(hmc_run(s, 5, 0, &steps), HMC_NONE, "run of none");
    want(steps, 0, "run of none: steps");
    want(lay(s, "send 2"), HMC_BAD, "lay of direction 2");
    want(lay(s, "give 0"), HMC_OK, "lay");
    want(hmc_next(s), HMC_WAITS, "next of a give of nothing");
    want(hmc_next(s), HMC_NONE, "next after the last");
}

static void misuse_of_requests(hmc_session *s) {
    want(hmc_request(s, 1, false, false, RD16, 0, 0, bytes, 0), HMC_NO_HOST, "host 1");
    want(hmc_request(s, 0, false, false, RD16, 1, 0, bytes, 0), HMC_NO_CUBE, "cube 1");
    want(hmc_request(s, 0, false, false, 0, 0, 0, bytes, 0), HMC_BAD, "a NULL");
    want(hmc_request(s, 0, false, false, WR16, 0, 0, bytes, 15), HMC_BAD, "15 bytes");
    want(hmc_request(s, 0, false, false, RD16, 0, 1ull << 34, bytes, 0), HMC_BAD, "an address");
    want(hmc_finish(s, 1), HMC_NO_HOST, "finish of host 1");
    want(hmc_finish(s, 8), HMC_NO_HOST, "finish of host 8");
    want(ask(s, "1 rd16 0 0x40"), HMC_BAD, "ask of host 1");
    want(ask(s, ""), HMC_BAD, "ask of nothing");
    want(ask(s, "0 rd16 0 0x40\n0 rd16 0 0x40\n"), HMC_BAD, "ask of two");
    want(ask(s, "0 rd16 0 0x40 \xff"), HMC_BAD, "ask of no text");
}

static void misuse_of_values(hmc_session *s) {
    hmc_entry_t entry;
    hmc_tokens_t tokens;
    hmc_counters_t counters;
    hmc_host_t host;
    hmc_cube_t cube;
    uint8_t line[2048], block[16];
    uint32_t number;
    size_t written;
    want(hmc_entry(s, &entry), HMC_NONE, "entry before the first step");
    want(hmc_line(s, line, sizeof line, &written), HMC_NONE, "line before the first step");
    want(hmc_block(s, 1, 0, block), HMC_NONE, "a block of cube 1");
    want(hmc_block(s, 0, 8, block), HMC_NONE, "a block at 8");
    want(hmc_block(s, 0, 1 << 20, block), HMC_NONE, "a block past the end");
    want(hmc_register(s, 0, 16, &number), HMC_NONE, "register 16");
    want(hmc_register(s, 1, 0, &number), HMC_NONE, "a register of cube 1");
    want(hmc_tokens(s, 2, &tokens), HMC_NONE, "tokens of direction 2");
    want(hmc_counters(s, 2, &counters), HMC_NONE, "counters of direction 2");
    want(hmc_host(s, 1, &host), HMC_NONE, "counts of host 1");
    want(hmc_cube(s, 1, &cube), HMC_NONE, "counts of cube 1");
}

static void want_fault(const hmc_fault_t *fault, int section, uint32_t line, const char *word) {
    want(fault->section, section, word);
    want(fault->line, line, word);
    want(strcmp((const char *)fault->word, word), 0, word);
}

static void faults(hmc_session *s) {
    static const char two[] = "0 rd16 0 0x40\n0 rd16 1 0x40\n";
    hmc_fault_t fault;
    want(hmc_fault((const uint8_t *)"no case", 7, &fault), HMC_OK, "fault");
    want_fault(&fault, 0, 0, "syntax");
    want(hmc_fault(text, length, &fault), HMC_NONE, "fault of a case");
    want(hmc_ask_fault(s, (const uint8_t *)two, sizeof two - 1, &fault), HMC_OK, "ask_fault");
    want_fault(&fault, 5, 2, "cube");
    want(hmc_ask_fault(s, bytes, 0, &fault), HMC_OK, "ask_fault of nothing");
    want_fault(&fault, 5, 0, "one");
    want(hmc_ask_fault(s, (const uint8_t *)"\xff", 1, &fault), HMC_OK, "ask_fault of no text");
    want_fault(&fault, 5, 0, "utf8");
    want(hmc_ask_fault(s, (const uint8_t *)read_line, strlen(read_line), &fault), HMC_NONE,
         "ask_fault of a request");
    want(hmc_lay_fault(s, (const uint8_t *)"\nsend 2", 7, &fault), HMC_OK, "lay_fault");
    want_fault(&fault, 6, 2, "range");
    want(hmc_lay_fault(s, (const uint8_t *)"send 0", 6, &fault), HMC_NONE, "lay_fault of a step");
}

/* Takes a step, and prints its line. */
static void take(hmc_session *s, uint8_t kind, uint8_t a, uint8_t b) {
    uint8_t line[2048];
    size_t written;
    want(hmc_step(s, kind, a, b, 0, no_mask), HMC_OK, "a step of a round");
    want(hmc_line(s, line, sizeof line, &written), HMC_OK, "its line");
    fwrite(line, 1, written, stdout);
    want(hmc_line(s, line, written - 1, &written), HMC_NONE, "too little room");
}

static void take_round(hmc_session *s) {
    static const uint8_t steps[12][3] = {
        {HMC_GIVE, 0, 0}, {HMC_SEND, 0, 0}, {HMC_SEND, 1, 0},      {HMC_LAND, 0, 0},
        {HMC_LAND, 1, 0}, {HMC_SHIFT, 0, 0}, {HMC_SPREAD, 0, 0},   {HMC_BANK, 0, 0},
        {HMC_REGISTERS, 0, 0}, {HMC_LIFT, 0, 0}, {HMC_LIFT, 0, HMC_REGISTERS_OF}, {HMC_TAKE, 0, 0},
    };
    for (int i = 0; i < 12; i++)
        take(s, steps[i][0], steps[i][1], steps[i][2]);
}

/* What the final lines of the example say. */
static void values(hmc_session *s) {
    hmc_tokens_t tokens;
    hmc_counters_t counters;
    hmc_host_t host;
    hmc_cube_t cube;
    uint8_t block[16];
    uint32_t number;
    uint64_t bound;
    bool drained;
    want(hmc_block(s, 0, 0x40, block), HMC_OK, "block");
    want(memcmp(block, bytes, 16), 0, "the block");
    want(hmc_register(s, 0, 4, &number), HMC_OK, "register");
    want(number, 0, "register 4");
    want(hmc_tokens(s, 1, &tokens), HMC_OK, "tokens");
    want(tokens.held, 34, "tokens held");
    want(tokens.transit + tokens.used + tokens.due + tokens.returning, 0, "tokens elsewhere");
    want(hmc_counters(s, 0, &counters), HMC_OK, "counters");
    want(counters.sent, ROUNDS, "sent");
    want(counters.accepted, 5, "accepted");
    want(hmc_host(s, 0, &host), HMC_OK, "host");
    want(host.given == 2 && host.taken == 2 && host.out == 0, 1, "the counts of the host");
    want(hmc_cube(s, 0, &cube), HMC_OK, "cube");
    want(cube.executed == 2 && cube.dropped == 0, 1, "the counts of the cube");
    want(hmc_drained(s, &drained), HMC_OK, "drained");
    want(drained, 1, "it is drained");
    want(hmc_under_way(s, &number), HMC_OK, "under_way");
    want(number, 0, "packets under way");
    want(hmc_drain_bound(s, &bound), HMC_OK, "drain_bound");
    want((long long)bound, 6000, "the bound");
}

/* Prints the final lines. */
static void finals(hmc_session *s) {
    uint8_t line[2048];
    size_t written = 0;
    for (uint32_t i = 0; i < FINALS; i++) {
        want(hmc_final_line(s, i, line, sizeof line, &written), HMC_OK, "a final line");
        fwrite(line, 1, written, stdout);
    }
    want(hmc_final_line(s, FINALS - 1, line, written - 1, &written), HMC_NONE, "too little room");
    want(written, 0, "too little room: written");
    want(hmc_final_line(s, FINALS, line, sizeof line, &written), HMC_NONE, "one line more");
}

/* The example by numbers: prints its report. */
static void by_numbers(void) {
    static uint8_t empty[65536], half[65536];
    hmc_session s = {0};
    int reads = 0;
    size_t count = without("script", half);
    memcpy(text, half, count);
    text[count] = 0;
    count = without("schedule", empty);
    want(hmc_open(empty, count, &s), HMC_OK, "open");
    misuse_of_steps(&s);
    misuse_of_requests(&s);
    misuse_of_values(&s);
    want(hmc_request(&s, 0, false, false, WR16, 0, 0x40, bytes, 16), HMC_OK, "wr16");
    want(hmc_request(&s, 0, false, false, RD16, 0, 0x40, bytes, 0), HMC_OK, "rd16");
    want(hmc_finish(&s, 0), HMC_OK, "finish");
    want(hmc_request(&s, 0, false, false, RD16, 0, 0, bytes, 0), HMC_FINISHED, "a finished host");
    want(ask(&s, read_line), HMC_FINISHED, "ask of a finished host");
    for (int i = 0; i < ROUNDS; i++) {
        hmc_entry_t entry;
        take_round(&s);
        want(hmc_entry(&s, &entry), HMC_OK, "entry");
        if (entry.kind == HMC_TOOK && entry.answer == 2) {
            reads++;
            want(entry.returned_length, 16, "the bytes of the read");
            want(memcmp(entry.returned, bytes, 16), 0, "the answer of the read");
        }
    }
    want(reads, 1, "reads that were answered");
    values(&s);
    finals(&s);
    hmc_close(&s);
}

/* The tape of the same request in other words, and of two steps: exactly these texts. */
static void on_tape(void) {
    static const char script[] = "0 fence\n0 poison rd16 0 0x40\n", schedule[] = "give 0\nsend 0\n";
    static uint8_t asked[65536];
    uint8_t out[64];
    size_t count = without("script", asked), length;
    hmc_session s = {0};
    want(hmc_open_with(asked, count, &no_unit, 0, &s), HMC_OK, "open with no units");
    want(hmc_tape_script(&s, out, sizeof out, &length), HMC_NONE, "a session without a tape");
    want((long long)length, 0, "a session without a tape: length");
    want(hmc_open_taped(asked, count, &no_unit, 0, &s), HMC_OK, "open with a tape");
    want(hmc_tape_schedule(&s, out, 0, &length), HMC_OK, "an empty tape");
    want((long long)length, 0, "an empty tape: length");
    want(ask(&s, "\n0 fence\n 0  poison rd16 0 0x40"), HMC_OK, "ask on a tape");
    want(ask(&s, "0 rd16 9 0x40"), HMC_BAD, "a bad request on a tape");
    want(hmc_step(&s, HMC_GIVE, 0, 0, 0, no_mask), HMC_OK, "a give on a tape");
    want(hmc_step(&s, HMC_GIVE, 0, 0, 0, no_mask), HMC_WAITS, "a give on a tape that waits");
    want(hmc_step(&s, HMC_SEND, 0, 0, 0, no_mask), HMC_OK, "a send on a tape");
    want(hmc_tape_script(&s, out, sizeof script - 2, &length), HMC_NONE, "a byte too little");
    want((long long)length, sizeof script - 1, "the length of a script");
    want(hmc_tape_script(&s, out, sizeof out, &length), HMC_OK, "tape_script");
    want(memcmp(out, script, length), 0, "the script");
    want(hmc_tape_schedule(&s, out, sizeof out, &length), HMC_OK, "tape_schedule");
    want((long long)length, sizeof schedule - 1, "the length of a schedule");
    want(memcmp(out, schedule, length), 0, "the schedule");
    hmc_close(&s);
}

/* The example in words: to each answer, and to the end. */
static void in_words(void) {
    static uint8_t asked[65536];
    hmc_session s = {0};
    hmc_entry_t entry;
    uint32_t steps, all = 0;
    size_t count = without("script", asked);
    want(hmc_open(asked, count, &s), HMC_OK, "open");
    faults(&s);
    want(ask(&s, write_line), HMC_OK, "ask");
    want(ask(&s, read_line), HMC_OK, "ask");
    for (int answer = 1; answer <= 2; answer++) {
        want(hmc_run(&s, STEPS, 1u << HMC_TOOK, &steps), HMC_OK, "run to an answer");
        all += steps;
        want(hmc_entry(&s, &entry), HMC_OK, "entry");
        want(entry.kind, HMC_TOOK, "an answer");
        want(entry.answer, answer, "done, then bytes");
    }
    want(hmc_run(&s, 10, 0, &steps), HMC_OK, "run of ten");
    want(steps <= 10, 1, "steps of a run of ten");
    all += steps;
    want(hmc_run(&s, STEPS, 0, &steps), HMC_NONE, "run to the end");
    /* the gives that wait aren't taken */
    want(all + steps, STEPS - (ROUNDS - 2), "steps of all runs");
    want(lay(&s, "send 0\nsend 1"), HMC_OK, "lay");
    want(hmc_next(&s), HMC_OK, "next");
    want(hmc_entry(&s, &entry), HMC_OK, "entry");
    want(entry.kind == HMC_SENT && entry.a == 0 && entry.what == 4, 1, "a null was sent");
    hmc_close(&s);
}

/* The checks that docs/crc.md works out by hand. */
static void crc(void) {
    uint8_t twelve[12] = {0};
    want(hmc_crc(twelve, 0), 0, "the check of nothing");
    twelve[11] = 1;
    want(hmc_crc(twelve, 12), 0x741B8CD7, "the check of 01");
    twelve[11] = 2;
    want(hmc_crc(twelve, 12), 0xE83719AE, "the check of 02");
    twelve[11] = 4;
    want(hmc_crc(twelve, 12), 0xA475BF8B, "the check of 04");
}

/* The flits of a wr16 in the report of the example, and what docs/packets.md says that they are. */
static const uint8_t write_flits[32] = {
    0x08, 0x01, 0x00, 0x40, 0x00, 0x00, 0x00, 0x00, 0x00, 0x01, 0x02, 0x03, 0x04, 0x05, 0x06, 0x07,
    0x08, 0x09, 0x0a, 0x0b, 0x0c, 0x0d, 0x0e, 0x0f, 0x02, 0x08, 0x0c, 0x00, 0x22, 0x11, 0xa9, 0xdc,
};

static void want_write(const hmc_packet_t *packet) {
    want(packet->command, WR16, "the command of a packet");
    want(packet->length, 16, "the bytes of a packet");
    want(memcmp(packet->payload, bytes, 16), 0, "the payload of a packet");
    want((long long)packet->address, 0x40, "the address of a packet");
    want(packet->tag + packet->cube + packet->slid + packet->errstat, 0, "numbers of a packet");
    want(packet->rrp == 2 && packet->frp == 4, 1, "the pointers of a packet");
    want(packet->seq == 3 && packet->rtc == 0, 1, "the sequence number and code of a packet");
    want(packet->flag || packet->poisoned, 0, "the flags of a packet");
}

static void codec(void) {
    uint8_t flits[32], out[17 * 16];
    hmc_packet_t packet, kept;
    size_t written = 1;
    memset(&packet, 0, sizeof packet);
    want(hmc_crc(write_flits, 28), 0xdca91122, "the check of a packet");
    want(hmc_read(write_flits, 2, false, &packet), HMC_OK, "read");
    want_write(&packet);
    want(hmc_spell(&packet, false, out, 1, &written), HMC_NONE, "spell, too little room");
    want(written, 0, "spell, too little room: written");
    want(hmc_spell(&packet, false, out, 17, &written), HMC_OK, "spell");
    want((long long)written, 2, "the flits of a packet");
    want(memcmp(out, write_flits, 32), 0, "the flits");
    kept = packet;
    want(hmc_read(write_flits, 1, false, &packet), HMC_BAD_LENGTH, "read of one flit");
    memcpy(flits, write_flits, 32);
    flits[8] ^= 1;
    want(hmc_read(flits, 2, false, &packet), HMC_BAD_CRC, "read of a changed flit");
    flits[8] ^= 1;
    for (int i = 28; i < 32; i++)
        flits[i] ^= 0xff;
    want(memcmp(&packet, &kept, sizeof packet), 0, "read that fails: the packet");
    want(hmc_read(flits, 2, false, &packet), HMC_OK, "read of a poisoned packet");
    want(packet.poisoned, 1, "a poisoned packet");
    packet.length = 15;
    want(hmc_spell(&packet, false, out, 17, &written), HMC_BAD, "spell of 15 bytes");
    memset(flits, 0, 16);
    want(hmc_read(flits, 1, true, &packet), HMC_OK, "read of a NULL");
    want(packet.command + packet.length, 0, "a NULL");
    flits[15] = 1;
    want(hmc_read(flits, 1, false, &packet), HMC_BAD_LENGTH, "read of a NULL with a check");
    memcpy(flits, write_flits, 32);
    flits[0] = 7;
    want(hmc_read(flits, 2, false, &packet), HMC_BAD_COMMAND, "read of the code 7");
    flits[0] = WR16;
    flits[2] |= 0x80;
    want(hmc_read(flits, 2, false, &packet), HMC_BAD_RESERVED, "read of a bit that is 0");
}

int main(int count, char **words) {
    if (count != 2)
        return 2;
    length = read_file(words[1], text, sizeof text - 1);
    want(hmc_version(), HMC_VERSION, "version");
    want(strcmp(hmc_status_name(HMC_FULL), "full"), 0, "the name of a status");
    want(strcmp(hmc_status_name(HMC_UNLAWFUL), "unlawful"), 0, "the name of the last status");
    want(strcmp(hmc_status_name(HMC_UNLAWFUL + 1), "?"), 0, "the name of none");
    crc();
    codec();
    closed_handle();
    on_tape();
    in_words();
    by_numbers();
    return 0;
}
