/* How much stack the calls need. Usage: stack CASE, a valid case with two cubes and no requests.
 * Each part runs on a thread whose stack is so long, and has a page after it that may not be used:
 * so too short a stack is a SIGSEGV. Compile without sanitizers, which use stack themselves. */
#include "hmc.h"

#include <pthread.h>
#include <stdio.h>
#include <stdlib.h>
#include <string.h>
#include <sys/mman.h>

/* What hmc.h and docs/c-library.md state. */
enum { STACK_OF_CASES = 64 * 1024, STACK_OF_TEXTS = 2 * 1024 * 1024 };
enum { PAGE = 4096, MOST_TEXT = 1 << 20, MOST_REPORT = 1 << 22, PARTS = 80, TABLES = 79 };

static uint8_t text[MOST_TEXT], report[MOST_REPORT];
static size_t length;

static void want(bool is_so, const char *what, int status) {
    if (is_so)
        return;
    fprintf(stderr, "%s: %d\n", what, status);
    exit(1);
}

/* A session from its opening to its tape, and the calls without one. */
static void *use_case(void *nothing) {
    static const uint8_t bytes[16] = {1}, rounds[] = "round 50", line[] = "0 rd16 1 0x40";
    static const hmc_unit_t none = {0};
    hmc_session s = {0};
    size_t written;
    uint32_t steps;
    uint8_t status = hmc_open_taped(text, length, &none, 0, &s);
    want(status == HMC_OK, "open", status);
    want(hmc_request(&s, 0, false, false, 8, 0, 0x40, bytes, 16) == HMC_OK, "request", 0);
    want(hmc_ask(&s, line, sizeof line - 1) == HMC_OK, "ask", 0);
    want(hmc_lay(&s, rounds, sizeof rounds - 1) == HMC_OK, "lay", 0);
    want(hmc_run(&s, UINT32_MAX, 0, &steps) == HMC_NONE && steps > 500, "run", (int)steps);
    want(hmc_tape_script(&s, report, MOST_REPORT, &written) == HMC_OK, "script", 0);
    want(hmc_tape_schedule(&s, report, MOST_REPORT, &written) == HMC_OK, "schedule", 0);
    hmc_close(&s);
    status = hmc_run_case(text, length, &none, 0, report, MOST_REPORT, &written);
    want(status == HMC_OK, "run_case", status);
    want(hmc_check(text, length, report, written, &none, 0, &steps) == HMC_OK, "check", 0);
    return nothing;
}

/* Opens a text that is no case, by the calls that read one. */
static void *use_text(void *nothing) {
    static const hmc_unit_t none = {0};
    hmc_session s = {0};
    hmc_fault_t fault;
    size_t written;
    uint32_t number;
    want(hmc_open_taped(text, length, &none, 0, &s) == HMC_BAD, "open", 0);
    want(hmc_fault(text, length, &fault) == HMC_OK, "fault", 0);
    want(strcmp((char *)fault.word, "unknown") == 0, (char *)fault.word, fault.section);
    want(hmc_run_case(text, length, &none, 0, report, MOST_REPORT, &written) == HMC_BAD, "run", 0);
    want(hmc_check(text, length, text, 1, &none, 0, &number) == HMC_BAD, "check", 0);
    return nothing;
}

/* Calls this on a thread with so much stack, and returns how much of it was used. */
static size_t used_by(void *(*call)(void *), size_t room) {
    uint8_t *base = mmap(NULL, room + PAGE, PROT_READ | PROT_WRITE, MAP_PRIVATE | MAP_ANONYMOUS,
                         -1, 0);
    want(base != MAP_FAILED && mprotect(base, PAGE, PROT_NONE) == 0, "memory", 0);
    uint8_t *stack = base + PAGE;
    memset(stack, 0xa5, room);
    pthread_attr_t how;
    pthread_t thread;
    pthread_attr_init(&how);
    want(pthread_attr_setstack(&how, stack, room) == 0, "a stack", 0);
    want(pthread_create(&thread, &how, call, NULL) == 0, "a thread", 0);
    pthread_join(thread, NULL);
    size_t unused = 0;
    while (unused < room && stack[unused] == 0xa5)
        unused++;
    munmap(base, room + PAGE);
    return room - unused;
}

static void put(const char *word) {
    memcpy(text + length, word, strlen(word));
    length += strlen(word);
}

static void put_key(void) {
    put("a");
    for (int i = 1; i < PARTS; i++)
        put(".a");
}

/* The deepest text that is known: tables in tables, each by a key of the most parts. */
static void put_deepest(void) {
    length = 0;
    put("[[");
    put_key();
    put("]]\n");
    put_key();
    put("=");
    for (int i = 0; i < TABLES; i++) {
        put("{");
        put_key();
        put("=");
    }
    put("1");
    for (int i = 0; i < TABLES; i++)
        put("}");
    put("\n");
}

int main(int count, char **words) {
    FILE *file = count == 2 ? fopen(words[1], "rb") : NULL;
    if (!file)
        return 2;
    length = fread(text, 1, MOST_TEXT, file);
    fclose(file);
    size_t of_case = used_by(use_case, STACK_OF_CASES);
    put_deepest();
    size_t of_text = used_by(use_text, STACK_OF_TEXTS);
    printf("%zu KB of stack for a case, %zu KB for the deepest text\n", of_case / 1024,
           of_text / 1024);
    return 0;
}
