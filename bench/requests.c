/* Steps and requests from C, for bench/c: prints nanoseconds a step by hmc_step, by hmc_step and
 * hmc_line, a call of hmc_step that names no step, and a request of a driver with eight at once, with
 * its steps.
 * Usage: requests CASE WHAT COUNT; WHAT is step, line, none or request. */
#include "hmc_driver.h"

#include <stdio.h>
#include <stdlib.h>
#include <string.h>
#include <time.h>

enum { AT_ONCE = 8, RD16 = 48, WR16 = 8 };

static uint8_t text[65536];
static size_t length;

static double now(void) {
    struct timespec t;
    clock_gettime(CLOCK_PROCESS_CPUTIME_ID, &t);
    return t.tv_sec * 1e9 + t.tv_nsec;
}

/* Rounds of a network of one cube, as a caller has them that knows its parts. */
static void steps(long count, bool with_lines) {
    static const uint8_t round[12][3] = {
        {HMC_GIVE, 0, 0}, {HMC_SEND, 0, 0}, {HMC_SEND, 1, 0}, {HMC_LAND, 0, 0},
        {HMC_LAND, 1, 0}, {HMC_SHIFT, 0, 0}, {HMC_SPREAD, 0, 0}, {HMC_BANK, 0, 0},
        {HMC_REGISTERS, 0, 0}, {HMC_LIFT, 0, 0}, {HMC_LIFT, 0, HMC_REGISTERS_OF}, {HMC_TAKE, 0, 0},
    };
    static const uint8_t no_mask[16] = {0};
    hmc_session s = {0};
    uint8_t line[2048];
    size_t written;
    if (hmc_open(text, length, &s) || hmc_finish(&s, 0))
        exit(1);
    double start = now();
    for (long i = 0; i < count; i++) {
        const uint8_t *step = round[i % 12];
        if (hmc_step(&s, step[0], step[1], step[2], 0, no_mask))
            exit(1);
        if (with_lines && hmc_line(&s, line, sizeof line, &written))
            exit(1);
    }
    printf("%.1f\n", (now() - start) / (double)count);
    hmc_close(&s);
}

/* Calls that name no step: they look the handle's session up and leave it. */
static void none(long count) {
    static const uint8_t no_mask[16] = {0};
    hmc_session s = {0};
    if (hmc_open(text, length, &s))
        exit(1);
    double start = now();
    for (long i = 0; i < count; i++)
        if (hmc_step(&s, HMC_RETIRE + 1, 0, 0, 0, no_mask) != HMC_NONE)
            exit(1);
    printf("%.1f\n", (now() - start) / (double)count);
    hmc_close(&s);
}

static void requests(long count) {
    uint8_t status, bytes[16] = {1};
    uint64_t id, rounds = 0;
    hmc_entry_t entry;
    hmc_driver *d = hmc_driver_open(text, length, &status);
    if (!d)
        exit(1);
    double start = now();
    for (long asked = 0; asked < count || hmc_driver_waiting(d); rounds++) {
        for (; asked < count && hmc_driver_waiting(d) < AT_ONCE; asked++)
            status |= hmc_driver_request(d, 0, asked % 2 ? RD16 : WR16, 0,
                                         16 * ((uint64_t)asked / 2 % 64), bytes,
                                         asked % 2 ? 0 : 16, (uint64_t)asked);
        while (hmc_driver_go(d, &id, &entry) == HMC_OK)
            status |= entry.answer != (id % 2 ? 2 : 1);
    }
    double took = now() - start;
    uint64_t all = rounds * hmc_driver_steps_of_round(d);
    if (status)
        exit(1);
    printf("%.1f %.1f\n", took / (double)count, took / (double)all);
    hmc_driver_close(d);
}

int main(int count, char **words) {
    FILE *file = count == 4 ? fopen(words[1], "rb") : NULL;
    if (!file)
        return 2;
    length = fread(text, 1, sizeof text, file);
    fclose(file);
    if (strcmp(words[2], "request") == 0)
        requests(atol(words[3]));
    else if (strcmp(words[2], "none") == 0)
        none(atol(words[3]));
    else
        steps(atol(words[3]), strcmp(words[2], "line") == 0);
    return 0;
}
