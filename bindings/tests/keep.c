/* Drivers with a tape: what one saves is a case, and its report has the lines that the driver saw.
 * Usage: keep CASE SAVED, where the case has two cubes of 1,024 bytes and no requests, and SAVED is
 * written. Ends with 0 where that is so for each spelling of the case. */
#include "hmc_driver.h"

#include <stdio.h>
#include <stdlib.h>
#include <string.h>

enum { MOST_TEXT = 1 << 20, MOST_SEEN = 1 << 14, RD16 = 48, WR16 = 8, PWR16 = 24, UNIT0 = 112 };

/* The units of the program, in their slots. */
static const hmc_unit_t units[2] = {{HMC_REVERSE, 0, 0}, {HMC_STAMP, 0, 1}};
static uint8_t text[MOST_TEXT], saved[MOST_TEXT], report[MOST_TEXT];
static char seen[MOST_SEEN];

static void fail(const char *what, int status) {
    fprintf(stderr, "%s: %d\n", what, status);
    exit(1);
}

static void want(bool is_so, const char *what, int status) {
    if (!is_so)
        fail(what, status);
}

static size_t read_file(const char *path, uint8_t *to) {
    FILE *file = fopen(path, "rb");
    want(file, path, 0);
    size_t length = fread(to, 1, MOST_TEXT, file);
    fclose(file);
    return length;
}

/* Adds the line of the latest entry to those that were seen. */
static void see(hmc_driver *d) {
    size_t length = 0, at = strlen(seen);
    uint8_t status = hmc_line(hmc_driver_session(d), (uint8_t *)seen + at, MOST_SEEN - at - 1,
                              &length);
    want(status == HMC_OK, "a line", status);
    seen[at + length] = 0;
}

/* Asks for requests, of which one is for a logic unit of the program, and takes rounds. */
static void use(hmc_driver *d) {
    static const uint8_t bytes[16] = "fifteen letters", mask[16] = {1};
    uint64_t id;
    hmc_entry_t entry;
    bool is_done;
    static const struct {
        uint8_t code, cube;
        size_t bytes;
    } asked[] = {{WR16, 0, 16}, {RD16, 0, 0}, {UNIT0, 0, 16}, {PWR16, 1, 16}, {RD16, 1, 0}};
    seen[0] = 0;
    for (size_t i = 0; i < sizeof asked / sizeof asked[0]; i++) {
        uint8_t status = hmc_driver_request(d, 0, asked[i].code, asked[i].cube, 0x40, bytes,
                                            asked[i].bytes, i);
        want(status == HMC_OK, "a request", status);
    }
    for (int i = 0; i < 200; i++) {
        while (hmc_driver_go(d, &id, &entry) == HMC_OK)
            see(d);
        if (i == 80) {
            hmc_driver_step(d, HMC_SEND, 0, 0, 0, mask, &is_done, &id, &entry);
            see(d);
            hmc_driver_step(d, HMC_LAND, 0, 0, 0, mask, &is_done, &id, &entry);
            see(d);
        }
    }
    want(hmc_driver_waiting(d) == 0, "requests that wait", (int)hmc_driver_waiting(d));
}

/* Whether the lines that were seen are in the report, one after another. */
static bool has_seen(const char *lines) {
    char line[2048];
    for (const char *at = seen; *at; at = strchr(at, '\n') + 1) {
        size_t length = (size_t)(strchr(at, '\n') + 1 - at);
        memcpy(line, at, length);
        line[length] = 0;
        lines = strstr(lines, line);
        if (!lines)
            return false;
        lines += length;
    }
    return true;
}

/* Opens a driver on a text, uses it and saves it. The report of what it saved has its lines. */
static void keep(const uint8_t *from, size_t length, const char *path, const char *what) {
    uint8_t status;
    size_t written;
    hmc_driver *d = hmc_driver_open_taped(from, length, &status);
    want(d, what, status);
    use(d);
    status = hmc_driver_save(d, path);
    want(status == HMC_OK, "save", status);
    want(hmc_driver_save(d, "/no/such/folder/case.toml") == HMC_NONE, "a file that can't be", 0);
    hmc_driver_close(d);
    length = read_file(path, saved);
    status = hmc_run_case(saved, length, units, 2, report, MOST_TEXT - 1, &written);
    want(status == HMC_OK, what, status);
    report[written] = 0;
    want(strncmp((char *)report, "retired 0\nretired 1\n", 20) == 0, "the first lines", 0);
    want(has_seen((char *)report), what, 0);
    want(strstr(seen, "took 0 2 error") != NULL, "an error without its unit", 0);
}

/* Texts around the values of script and schedule that are one case. The tables come after them. */
static const char *const heads[] = {
    "schedule = ''\nscript = \"\"\nprofile = 1\n",
    "\xef\xbb\xbf# script = 'x'\r\nprofile = 1 # 'it\r\nscript = '''\r\n'''\r\nschedule = ''\r\n",
    "\"script\" = \"\"\"\n# \\\"\"\" ''' script = 1\n\"\"\" # more\n'schedule' = '''# ''''\nprofile=1\n",
    "profile = 1\nschedule = \"round 3\"\n\n\tscript\t=\t'''\n# schedule = '\n'''\n",
};

static void keep_each(const char *tables, const char *path) {
    for (size_t i = 0; i < sizeof heads / sizeof heads[0]; i++) {
        size_t front = strlen(heads[i]), length = front + strlen(tables);
        uint8_t *spelled = malloc(length);
        want(spelled, "memory", 0);
        memcpy(spelled, heads[i], front);
        memcpy(spelled + front, tables, length - front);
        keep(spelled, length, path, heads[i]);
        free(spelled);
    }
}

/* Cubes and links as values of keys, before and between the two texts. */
static const char whole[] =
    "cubes = [{vault_bits = 1, bank_bits = 1, rows = 1, queue = 4}, # script = ']'\n"
    "  {vault_bits = 1, bank_bits = 1, rows = 1, queue = 4}]\nscript = ''\n"
    "links = [{a = 'h0', b = \"c0.0\", line = 8, tokens = 34, retry = 64, output = 4},\n"
    "  {a = 'c0.1', b = 'c1.0', line = 8, tokens = 34, retry = 64, output = 4}]\n"
    "profile = 1\nschedule = ''";

static void misuse(size_t length) {
    static const char escaped[] = "\"scr\\u0069pt\" = ''\nschedule = ''\nprofile = 1\n";
    uint8_t status = HMC_OK;
    want(!hmc_driver_open_taped((const uint8_t *)"no case", 7, &status) && status == HMC_BAD,
         "no case", status);
    hmc_driver *d = hmc_driver_open(text, length, &status);
    want(d && hmc_driver_save(d, "/dev/null") == HMC_NONE, "no tape", status);
    hmc_driver_close(d);
    const char *tables = strstr((char *)text, "\n[[cubes]]");
    size_t front = strlen(escaped), rest = strlen(tables);
    memcpy(saved, escaped, front);
    memcpy(saved + front, tables, rest);
    d = hmc_driver_open(saved, front + rest, &status);
    want(d, "a key with an escape", status);
    hmc_driver_close(d);
    d = hmc_driver_open_taped(saved, front + rest, &status);
    want(!d && status == HMC_BAD, "a tape where a key has an escape", status);
}

int main(int count, char **words) {
    if (count != 3)
        return 2;
    size_t length = read_file(words[1], text);
    misuse(length);
    keep_each(strstr((char *)text, "\n[[cubes]]"), words[2]);
    keep((const uint8_t *)whole, sizeof whole - 1, words[2], "inline tables");
    keep(text, length, words[2], words[1]);
    printf("%zu spellings of a case\n", sizeof heads / sizeof heads[0] + 2);
    return 0;
}
