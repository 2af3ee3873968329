/* Random requests and steps, and what they did. The session's tape is a case, so the program
 * replays it, and its report begins with the lines of the session. Usage: drive CASE SCRIPT
 * SCHEDULE LINES CHOICES SEED, where the case has no requests, and the three files are written.
 * Ends with 0 where each call answered as hmc.h says. */
#include "hmc.h"

#include <stdio.h>
#include <stdlib.h>

enum { MOST_ASKED = 20000, MOST_TEXT = 65536, HOSTS = 2, CUBES = 3, DIRECTIONS = 8 };

/* Some commands: codes (docs/packets.md), bytes of payload, and what addresses are multiples of. */
typedef struct {
    uint8_t code;
    size_t bytes;
    unsigned align;
} command;

static const command commands[] = {
    {48, 0, 16},   {55, 0, 16},  {119, 0, 256}, {8, 16, 16},
    {11, 64, 16},  {79, 256, 256}, {25, 32, 16},  {80, 0, 8},
    {64, 16, 16}, {17, 16, 8},    {19, 16, 16},  {100, 16, 8},
    {106, 16, 16}, {40, 0, 1},
};
enum { COMMANDS = sizeof commands / sizeof commands[0] };

typedef struct {
    hmc_session session;
    FILE *lines;
    unsigned long long seed;
    unsigned long asked, taken, waits, none, answers;
    bool is_over;
} drive;

static unsigned below(drive *d, unsigned limit) {
    d->seed = d->seed * 6364136223846793005u + 1442695040888963407u;
    return (unsigned)(d->seed >> 33) % limit;
}

static void fail(const char *what, int status) {
    fprintf(stderr, "%s: %d\n", what, status);
    exit(1);
}

/* Asks for a random request, sometimes fenced, poisoned or with an address that has an error. */
static void ask(drive *d) {
    const command *c = &commands[below(d, COMMANDS)];
    uint8_t payload[256];
    unsigned host = below(d, HOSTS), cube = below(d, CUBES);
    unsigned address = below(d, 4200) / c->align * c->align + (below(d, 50) == 0);
    bool fenced = below(d, 20) == 0, poisoned = below(d, 40) == 0;
    for (size_t i = 0; i < c->bytes; i++)
        payload[i] = (uint8_t)below(d, 256);
    if (c->align == 1)
        address %= 20;
    int status = hmc_request(&d->session, (uint8_t)host, fenced, poisoned, c->code, (uint8_t)cube,
                             address, payload, c->bytes);
    if (status != HMC_OK)
        fail("a request", status);
    d->asked++;
}

/* The line of a step. */
static void note(drive *d) {
    uint8_t line[2048];
    size_t length;
    int status = hmc_line(&d->session, line, sizeof line, &length);
    if (status != HMC_OK || length == 0 || line[length - 1] != '\n')
        fail("a line", status);
    fwrite(line, 1, length, d->lines);
}

/* Random numbers for a step, mostly of parts that are there. */
static void choose(drive *d, unsigned kind, uint8_t numbers[3]) {
    static const uint8_t vaults[CUBES] = {2, 1, 4}, banks[CUBES] = {2, 2, 1};
    uint8_t cube = (uint8_t)below(d, CUBES);
    numbers[0] = cube;
    numbers[1] = numbers[2] = 0;
    if (kind == HMC_GIVE || kind == HMC_TAKE)
        numbers[0] = (uint8_t)below(d, HOSTS);
    if (kind == HMC_SEND || kind == HMC_LAND || kind == HMC_UNLOCK)
        numbers[0] = (uint8_t)below(d, DIRECTIONS);
    if (kind == HMC_RETIRE)
        numbers[0] = (uint8_t)below(d, 8);
    if (kind == HMC_SHIFT || kind == HMC_THROUGH)
        numbers[1] = (uint8_t)below(d, 4);
    if (kind == HMC_SPREAD || kind == HMC_BANK || kind == HMC_LIFT)
        numbers[1] = (uint8_t)below(d, vaults[cube]);
    if (kind == HMC_BANK)
        numbers[2] = (uint8_t)below(d, banks[cube]);
    if (kind == HMC_LIFT && below(d, 4) == 0)
        numbers[1] = HMC_REGISTERS_OF;
}

/* Takes a random step. Unlocks, masks and steps ahead are rare, so that requests are answered. */
static void step(drive *d) {
    static const unsigned kinds[] = {HMC_GIVE, HMC_SEND, HMC_SEND, HMC_LAND, HMC_LAND, HMC_SHIFT,
                                     HMC_SPREAD, HMC_BANK, HMC_BANK, HMC_REGISTERS, HMC_LIFT,
                                     HMC_TAKE};
    unsigned kind = kinds[below(d, sizeof kinds / sizeof kinds[0])];
    uint8_t numbers[3], mask[16] = {0};
    if (below(d, 60) == 0)
        kind = HMC_THROUGH;
    if (below(d, 4000) == 0)
        kind = below(d, 2) ? HMC_UNLOCK : HMC_RETIRE;
    choose(d, kind, numbers);
    if (kind == HMC_LAND && below(d, 400) == 0)
        mask[below(d, 16)] = (uint8_t)(1u << below(d, 8));
    int status = hmc_step(&d->session, (uint8_t)kind, numbers[0], numbers[1], numbers[2], mask);
    d->waits += status == HMC_WAITS;
    d->none += status == HMC_NONE;
    if (status == HMC_WAITS || status == HMC_NONE)
        return;
    if (status != HMC_OK && status != HMC_PASSED)
        fail("a step", status);
    d->taken++;
    d->is_over = status == HMC_PASSED;
    note(d);
    hmc_entry_t entry;
    if (hmc_entry(&d->session, &entry) != HMC_OK)
        fail("an entry", 0);
    d->answers += entry.kind == HMC_TOOK;
}

static void open_all(drive *d, char **words) {
    /* The units of the program, in their slots. */
    static const hmc_unit_t units[2] = {{HMC_REVERSE, 0, 0}, {HMC_STAMP, 0, 1}};
    static uint8_t text[MOST_TEXT];
    FILE *file = fopen(words[1], "rb");
    d->lines = fopen(words[4], "w");
    if (!file || !d->lines)
        fail("a file", 0);
    size_t length = fread(text, 1, sizeof text, file);
    fclose(file);
    int status = hmc_open_taped(text, length, units, 2, &d->session);
    if (status != HMC_OK)
        fail("open", status);
}

/* Writes one text of the tape: first its length alone is asked for. */
static void write_tape(drive *d, uint8_t (*text)(hmc_session *, uint8_t *, size_t, size_t *),
                       const char *name) {
    uint8_t none;
    size_t length, written;
    int status = text(&d->session, &none, 0, &length);
    if (length > 0 && status != HMC_NONE)
        fail("the length of a tape", status);
    uint8_t *bytes = malloc(length + 1);
    FILE *file = fopen(name, "w");
    if (!bytes || !file)
        fail("a file", 0);
    status = text(&d->session, bytes, length, &written);
    if (status != HMC_OK || written != length)
        fail("a tape", status);
    fwrite(bytes, 1, length, file);
    fclose(file);
    free(bytes);
}

int main(int count, char **words) {
    static drive d;
    if (count != 7)
        return 2;
    d.seed = strtoull(words[6], NULL, 10);
    open_all(&d, words);
    long choices = atol(words[5]);
    for (long i = 0; i < choices && !d.is_over; i++) {
        if (below(&d, 120) == 0 && d.asked < MOST_ASKED)
            ask(&d);
        else
            step(&d);
    }
    write_tape(&d, hmc_tape_script, words[2]);
    write_tape(&d, hmc_tape_schedule, words[3]);
    hmc_close(&d.session);
    fclose(d.lines);
    printf("%lu requests, %lu steps, %lu waits, %lu of no part, %lu answers%s\n", d.asked, d.taken,
           d.waits, d.none, d.answers, d.is_over ? ", a changed flit passed" : "");
    return d.answers == 0;
}
