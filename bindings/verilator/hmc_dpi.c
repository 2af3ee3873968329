/* The functions of hmc_pkg.sv, over hmc_driver.h. A network that is null is closed. */
#include "hmc_driver.h"

#include <stdio.h>
#include <stdlib.h>
#include <string.h>

#include "svdpi.h"

typedef struct {
    hmc_driver *driver;
    char line[2049];
} network;

static void to_bytes(uint8_t *bytes, const svBitVecVal *from, size_t length) {
    for (size_t i = 0; i < length; i++)
        bytes[i] = (uint8_t)(from[i / 4] >> (8 * (i % 4)));
}

static void to_vector(svBitVecVal *to, const uint8_t *bytes, size_t length, size_t room) {
    memset(to, 0, room);
    for (size_t i = 0; i < length && i < room; i++)
        to[i / 4] |= (svBitVecVal)bytes[i] << (8 * (i % 4));
}

typedef hmc_driver *open_call(const uint8_t *, size_t, uint8_t *);

static void *opened(const uint8_t *text, size_t length, open_call *open) {
    uint8_t status;
    network *made = calloc(1, sizeof *made);
    if (made && !(made->driver = open(text, length, &status))) {
        free(made);
        return NULL;
    }
    return made;
}

void *hmc_sv_open(const char *text) {
    return opened((const uint8_t *)text, strlen(text), hmc_driver_open);
}

void *hmc_sv_open_taped(const char *text) {
    return opened((const uint8_t *)text, strlen(text), hmc_driver_open_taped);
}

static void *opened_file(const char *path, open_call *open) {
    enum { MOST_BYTES = 4194304 };
    FILE *file = fopen(path, "rb");
    uint8_t *text = file ? malloc(MOST_BYTES + 1) : NULL;
    void *made = NULL;
    if (text) {
        size_t length = fread(text, 1, MOST_BYTES + 1, file);
        made = opened(text, length, open);
    }
    free(text);
    if (file)
        fclose(file);
    return made;
}

void *hmc_sv_open_file(const char *path) {
    return opened_file(path, hmc_driver_open);
}

void *hmc_sv_open_file_taped(const char *path) {
    return opened_file(path, hmc_driver_open_taped);
}

int hmc_sv_save(void *at, const char *path) {
    network *n = at;
    return n ? hmc_driver_save(n->driver, path) : HMC_CLOSED;
}

void hmc_sv_close(void *at) {
    network *n = at;
    if (n)
        hmc_driver_close(n->driver);
    free(n);
}

static bool is_byte(int number) {
    return number >= 0 && number <= 255;
}

int hmc_sv_request(void *at, int host, int code, int cube, unsigned long long address,
                   const svBitVecVal *payload, int length, unsigned long long id) {
    network *n = at;
    uint8_t bytes[256];
    if (!n)
        return HMC_CLOSED;
    if (!is_byte(host))
        return HMC_NO_HOST;
    if (!is_byte(code) || !is_byte(cube) || length < 0 || length > 256)
        return HMC_BAD;
    to_bytes(bytes, payload, (size_t)length);
    return hmc_driver_request(n->driver, (uint8_t)host, (uint8_t)code, (uint8_t)cube, address,
                              bytes, (size_t)length, id);
}

int hmc_sv_go(void *at, unsigned long long *id, int *answer, svBit *flag, unsigned int *value,
              int *length, svBitVecVal *data) {
    network *n = at;
    hmc_entry_t entry;
    uint64_t number = 0;
    memset(&entry, 0, sizeof entry);
    int status = n ? hmc_driver_go(n->driver, &number, &entry) : HMC_CLOSED;
    if (status != HMC_OK)
        memset(&entry, 0, sizeof entry);
    *id = number;
    *answer = entry.answer;
    *flag = entry.flag;
    *value = entry.value;
    *length = (int)entry.returned_length;
    to_vector(data, entry.returned, entry.returned_length, 256);
    return status;
}

int hmc_sv_step(void *at, int kind, int a, int b, int c, const svBitVecVal *mask, svBit *is_done,
                unsigned long long *id) {
    network *n = at;
    hmc_entry_t entry;
    uint64_t number = 0;
    bool done = false;
    uint8_t bits[16];
    int status = HMC_CLOSED;
    to_bytes(bits, mask, 16);
    if (n && !(is_byte(kind) && is_byte(a) && is_byte(b) && is_byte(c)))
        status = HMC_NONE;
    else if (n)
        status = hmc_driver_step(n->driver, (uint8_t)kind, (uint8_t)a, (uint8_t)b, (uint8_t)c, bits,
                                 &done, &number, &entry);
    *is_done = done;
    *id = number;
    return status;
}

int hmc_sv_entry(void *at, int *kind, int *a, int *b, int *c, int *tag, svBitVecVal *flit) {
    network *n = at;
    hmc_entry_t entry;
    memset(&entry, 0, sizeof entry);
    int status = n ? hmc_entry(hmc_driver_session(n->driver), &entry) : HMC_CLOSED;
    *kind = entry.kind;
    *a = entry.a;
    *b = entry.b;
    *c = entry.c;
    *tag = entry.tag;
    to_vector(flit, entry.flit, 16, 16);
    return status;
}

const char *hmc_sv_line(void *at) {
    network *n = at;
    size_t length = 0;
    if (!n)
        return "";
    if (hmc_line(hmc_driver_session(n->driver), (uint8_t *)n->line, 2048, &length) != HMC_OK)
        length = 1;
    n->line[length - 1] = 0;
    return n->line;
}

unsigned long long hmc_sv_waiting(void *at) {
    network *n = at;
    return n ? hmc_driver_waiting(n->driver) : 0;
}

int hmc_sv_steps_of_round(void *at) {
    network *n = at;
    return n ? (int)hmc_driver_steps_of_round(n->driver) : 0;
}
