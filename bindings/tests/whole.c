/* Whole cases: the report of each, whether it is lawful, also with a changed byte, and a session
 * that takes its steps, with its lines and its final lines.
 * Usage: whole CASE REPORT [CASE REPORT ..], each with the stored report of the program's units.
 * Ends with 0 where all are the same. */
#include "hmc.h"

#include <stdio.h>
#include <stdlib.h>
#include <string.h>

enum { MOST_FINALS = 400 };

static const hmc_unit_t units[2] = {{HMC_REVERSE, 0, 0}, {HMC_STAMP, 0, 1}};
static const char *name;
static unsigned long steps;

typedef struct {
    uint8_t *bytes;
    size_t length;
} text;

static void want(long long got, long long wanted, const char *call) {
    if (got != wanted) {
        fprintf(stderr, "%s: %s: %lld and not %lld\n", name, call, got, wanted);
        exit(1);
    }
}

static text room_for(size_t length) {
    text room = {malloc(length + 1), length};
    if (!room.bytes)
        exit(2);
    return room;
}

static text read_file(const char *path) {
    FILE *file = fopen(path, "rb");
    if (!file || fseek(file, 0, SEEK_END) != 0)
        exit(2);
    text read = room_for((size_t)ftell(file));
    rewind(file);
    read.length = fread(read.bytes, 1, read.length, file);
    fclose(file);
    return read;
}

/* The report: first its length alone. */
static uint8_t run_case(const text *of, const text *report) {
    size_t length = 0;
    uint8_t none;
    want(hmc_run_case(of->bytes, of->length, units, 2, &none, 0, &length), HMC_NONE, "no room");
    want((long long)length, (long long)report->length, "the length of the report");
    text out = room_for(length);
    uint8_t status = hmc_run_case(of->bytes, of->length, units, 2, out.bytes, length, &length);
    want(memcmp(out.bytes, report->bytes, length), 0, "the report");
    free(out.bytes);
    return status;
}

static bool is_final(const uint8_t *line) {
    static const char *const words[7] = {"memory ", "register ", "tokens ", "counters ",
                                         "host ",   "cube ",     "state "};
    for (int i = 0; i < 7; i++)
        if (strncmp((const char *)line, words[i], strlen(words[i])) == 0)
            return true;
    return false;
}

/* The lines of steps of a report. */
static uint32_t entries_of(const text *report) {
    uint32_t lines = 0;
    for (size_t i = 0; i < report->length; i++)
        if ((i == 0 || report->bytes[i - 1] == '\n') && !is_final(report->bytes + i))
            lines++;
    return lines;
}

/* The report is lawful; with a byte of a line in the middle changed it isn't from that line on. */
static void check(const text *of, const text *report) {
    uint32_t number = 0, line = 1;
    want(hmc_check(of->bytes, of->length, report->bytes, report->length, units, 2, &number), HMC_OK,
         "check");
    want(number, entries_of(report), "the entries of the report");
    size_t at = report->length / 2;
    while (report->bytes[at] == '\n')
        at++;
    for (size_t i = 0; i < at; i++)
        line += report->bytes[i] == '\n';
    report->bytes[at] ^= 1;
    want(hmc_check(of->bytes, of->length, report->bytes, report->length, units, 2, &number),
         HMC_UNLAWFUL, "check of a changed report");
    want(number, line, "the line that was changed");
    report->bytes[at] ^= 1;
}

/* Compares a line with the next one of the report. */
static void same_line(const uint8_t *line, size_t length, const text *report, size_t *at) {
    want(*at + length <= report->length && memcmp(line, report->bytes + *at, length) == 0, 1,
         "a line");
    *at += length;
}

/* A session that takes the steps of the case. */
static void take(const text *of, const text *report, bool passes) {
    hmc_session s = {0};
    uint8_t line[2048], status = HMC_OK;
    size_t at = 0, length;
    want(hmc_open_with(of->bytes, of->length, units, 2, &s), HMC_OK, "open");
    for (uint8_t host = 0; status == HMC_OK; host++)
        status = hmc_finish(&s, host);
    want(status, HMC_NO_HOST, "finish of each host");
    while ((status = hmc_next(&s)) == HMC_OK || status == HMC_PASSED) {
        want(hmc_line(&s, line, sizeof line, &length), HMC_OK, "line");
        same_line(line, length, report, &at);
        steps++;
        if (status == HMC_PASSED)
            break;
    }
    want(status, passes ? HMC_PASSED : HMC_NONE, "the end of the steps");
    for (uint32_t i = 0; i < MOST_FINALS; i++) {
        status = hmc_final_line(&s, i, line, sizeof line, &length);
        if (status != HMC_OK)
            break;
        same_line(line, length, report, &at);
    }
    want(status, passes ? HMC_OVER : HMC_NONE, "the end of the final lines");
    want((long long)at, (long long)report->length, "the bytes of the lines");
    hmc_close(&s);
}

int main(int count, char **words) {
    for (int i = 1; i + 1 < count; i += 2) {
        name = words[i];
        text of = read_file(words[i]), report = read_file(words[i + 1]);
        uint8_t status = run_case(&of, &report);
        want(status == HMC_OK || status == HMC_PASSED, 1, "the status of the report");
        check(&of, &report);
        take(&of, &report, status == HMC_PASSED);
        free(of.bytes);
        free(report.bytes);
    }
    printf("%d cases, %lu steps, as stored\n", count / 2, steps);
    return count < 3;
}
