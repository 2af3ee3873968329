/* Each allocation is refused in turn: a call then says so and changes nothing, or does without, and
 * nothing leaks. Link with -Wl,--wrap=malloc,--wrap=calloc,--wrap=realloc,--wrap=free.
 * Usage: refuse CASE, a case without requests. */
#include "hmc_driver.h"

#include <stdio.h>
#include <stdlib.h>
#include <string.h>

enum { MOST_TEXT = 65536, MOST_REPORT = 4096, RD16 = 48, WR16 = 8, REQUESTS = 40, ROUNDS = 60 };

static long refused = -1, allocations, live;
static int wrong;

void *__real_malloc(size_t bytes);
void *__real_calloc(size_t count, size_t bytes);
void *__real_realloc(void *at, size_t bytes);
void __real_free(void *at);
void *__wrap_malloc(size_t bytes);
void *__wrap_calloc(size_t count, size_t bytes);
void *__wrap_realloc(void *at, size_t bytes);
void __wrap_free(void *at);

void *__wrap_malloc(size_t bytes) {
    if (allocations++ == refused)
        return NULL;
    live++;
    return __real_malloc(bytes);
}

void *__wrap_calloc(size_t count, size_t bytes) {
    if (allocations++ == refused)
        return NULL;
    live++;
    return __real_calloc(count, bytes);
}

void *__wrap_realloc(void *at, size_t bytes) {
    if (allocations++ == refused)
        return NULL;
    live += at == NULL;
    return __real_realloc(at, bytes);
}

void __wrap_free(void *at) {
    live -= at != NULL;
    __real_free(at);
}

static void want(bool is_so, const char *what, int status) {
    if (is_so)
        return;
    wrong++;
    fprintf(stderr, "allocation %ld, %s: %d\n", refused, what, status);
}

/* Asks for requests until one is refused, asks for that one again, and takes rounds. */
static void use(hmc_driver *d) {
    static const uint8_t bytes[16] = {1};
    uint64_t id, done = 0;
    hmc_entry_t entry;
    for (uint64_t i = 0; i < REQUESTS; i++) {
        uint8_t code = i % 2 ? RD16 : WR16;
        uint8_t status = HMC_MEMORY;
        for (int tries = 0; tries < 2 && status == HMC_MEMORY; tries++)
            status = hmc_driver_request(d, 0, code, 0, 16 * (i / 2), bytes, i % 2 ? 0 : 16, i);
        want(status == HMC_OK, "a request that is asked again", status);
    }
    for (int i = 0; i < 100 * ROUNDS && hmc_driver_waiting(d); i++)
        while (hmc_driver_go(d, &id, &entry) == HMC_OK) {
            want(id < REQUESTS && entry.kind == HMC_TOOK, "an answer", entry.kind);
            want(id % 2 == 0 || entry.returned[0] == 1, "the bytes of a read", entry.returned[0]);
            done++;
        }
    want(done == REQUESTS, "answers", (int)done);
}

/* Saves a driver with a tape; a save that is out of memory is made again. */
static void save(hmc_driver *d) {
    uint8_t status = HMC_MEMORY;
    for (int tries = 0; tries < 2 && status == HMC_MEMORY; tries++)
        status = hmc_driver_save(d, "/dev/null");
    want(status == HMC_OK, "a save that is made again", status);
}

/* One run with the allocation of this number refused. False: there was no such allocation. */
static bool run(const uint8_t *text, size_t length, bool is_taped, long *absorbed) {
    allocations = live = 0;
    uint8_t status = HMC_OK;
    hmc_driver *d = is_taped ? hmc_driver_open_taped(text, length, &status)
                             : hmc_driver_open(text, length, &status);
    want(d ? status == HMC_OK : status == HMC_MEMORY, "open", status);
    if (d) {
        use(d);
        if (is_taped)
            save(d);
        *absorbed += allocations > refused;
    }
    hmc_driver_close(d);
    want(live == 0, "live allocations at the end", (int)live);
    return allocations > refused;
}

/* What a session with a tape did: the lengths of its two texts. */
typedef struct {
    size_t script, schedule;
} tape;

static void write_nothing(hmc_session *s, tape *of) {
    uint8_t none;
    want(hmc_tape_script(s, &none, 0, &of->script) == HMC_NONE, "a script, no room", 0);
    want(hmc_tape_schedule(s, &none, 0, &of->schedule) == HMC_NONE, "a schedule, no room", 0);
}

/* Asks a session with a tape, and takes rounds; a call that is out of memory is made again. */
static bool run_taped(const uint8_t *text, size_t length, tape *of) {
    static const uint8_t bytes[16] = {1}, rounds[] = "round 60";
    static const hmc_unit_t unit = {HMC_REVERSE, 0, 0};
    hmc_session s = {0};
    uint32_t steps;
    uint8_t status = HMC_MEMORY;
    allocations = live = 0;
    for (int tries = 0; tries < 2 && status == HMC_MEMORY; tries++)
        status = hmc_open_taped(text, length, &unit, 1, &s);
    want(status == HMC_OK, "open with a tape again", status);
    for (int i = 0; i < REQUESTS; i++) {
        status = HMC_MEMORY;
        for (int tries = 0; tries < 2 && status == HMC_MEMORY; tries++)
            status = hmc_request(&s, 0, false, false, WR16, 0, 16 * (uint64_t)i, bytes, 16);
        want(status == HMC_OK, "a request on a tape that is asked again", status);
    }
    status = HMC_MEMORY;
    for (int tries = 0; tries < 2 && status == HMC_MEMORY; tries++)
        status = hmc_lay(&s, rounds, sizeof rounds - 1);
    want(status == HMC_OK, "lay again", status);
    status = HMC_MEMORY;
    for (int tries = 0; tries < 2 && status == HMC_MEMORY; tries++)
        status = hmc_run(&s, UINT32_MAX, 0, &steps);
    want(status == HMC_NONE, "run on a tape again", status);
    write_nothing(&s, of);
    hmc_close(&s);
    want(live == 0, "live allocations after a tape", (int)live);
    return allocations > refused;
}

/* A whole case and a check of its report. */
static bool run_whole(const uint8_t *text, size_t length) {
    static const hmc_unit_t unit = {HMC_REVERSE, 0, 0};
    static uint8_t report[MOST_REPORT];
    size_t written;
    uint32_t number;
    allocations = live = 0;
    uint8_t status = hmc_run_case(text, length, &unit, 1, report, sizeof report, &written);
    want(status == HMC_OK || status == HMC_MEMORY, "run_case", status);
    want(status == HMC_OK || written == 0, "the length of no report", (int)written);
    if (status == HMC_OK) {
        status = hmc_check(text, length, report, written, &unit, 1, &number);
        want(status == HMC_OK || status == HMC_MEMORY, "check", status);
    }
    want(live == 0, "live allocations after a case", (int)live);
    return allocations > refused;
}

/* A handle on which open fails stays as it was. */
static void reopen(const uint8_t *text, size_t length) {
    static const uint8_t no_mask[16] = {0};
    hmc_session s = {0};
    refused = -1;
    want(hmc_open(text, length, &s) == HMC_OK, "open", 0);
    want(hmc_step(&s, HMC_SEND, 0, 0, 0, no_mask) == HMC_OK, "a step", 0);
    void *at = s.at;
    allocations = 0;
    refused = 3;
    hmc_entry_t entry;
    want(hmc_open(text, length, &s) == HMC_MEMORY, "open again, out of memory", 0);
    want(s.at == at && hmc_entry(&s, &entry) == HMC_OK && entry.kind == HMC_SENT, "the handle", 0);
    refused = -1;
    want(hmc_open((const uint8_t *)"x", 1, &s) == HMC_BAD && s.at == at, "open of no case", 0);
    want(hmc_open(text, length, &s) == HMC_OK, "open again", 0);
    want(hmc_entry(&s, &entry) == HMC_NONE, "the new session", 0);
    hmc_close(&s);
    hmc_close(&s);
}

int main(int count, char **words) {
    static uint8_t text[MOST_TEXT];
    FILE *file = count == 2 ? fopen(words[1], "rb") : NULL;
    if (!file)
        return 2;
    size_t length = fread(text, 1, sizeof text, file);
    fclose(file);
    long absorbed = 0;
    for (refused = 0; run(text, length, false, &absorbed); refused++) {
    }
    long tried = refused;
    for (refused = 0; run(text, length, true, &absorbed); refused++, tried++) {
    }
    tape whole, of;
    refused = -1;
    run_taped(text, length, &whole);
    for (refused = 0; run_taped(text, length, &of); refused++, tried++)
        want(of.script == whole.script && of.schedule == whole.schedule, "the tape", 0);
    for (refused = 0; run_whole(text, length); refused++, tried++) {
    }
    reopen(text, length);
    printf("%ld allocations refused in turn, %ld of them done without, %d wrong\n", tried, absorbed,
           wrong);
    return wrong != 0;
}
