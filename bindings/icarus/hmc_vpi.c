/* The driver of hmc_driver.h as system tasks for simulators with VPI and no DPI, as Icarus Verilog:
 *
 *   network = $hmc_open("chain.toml");                              0: not a case
 *   status  = $hmc_request(network, host, code, cube, address, payload, bytes, id);
 *   status  = $hmc_go(network, id, answer, flag, value, bytes, data);   0: a request is done
 *   status  = $hmc_step(network, kind, a, b, c, mask);
 *             $hmc_line(network, line);                             the line of the latest step
 *
 * Arguments are vectors of any width; byte 0 is the lowest eight bits. */
#include <stdint.h>
#include <stdio.h>
#include <stdlib.h>
#include <string.h>
#include <vpi_user.h>

#include "hmc_driver.h"

enum { MOST = 64, MOST_BYTES = 4194304, MOST_ARGS = 8 };

static hmc_driver *networks[MOST];
static char lines[MOST][2049];

typedef struct {
    vpiHandle call, arg[MOST_ARGS];
    int count;
} args;

static args take(void) {
    args a = {vpi_handle(vpiSysTfCall, NULL), {NULL}, 0};
    vpiHandle it = vpi_iterate(vpiArgument, a.call);
    vpiHandle next;
    while (it && (next = vpi_scan(it)))
        if (a.count < MOST_ARGS)
            a.arg[a.count++] = next;
    return a;
}

/* The bytes of an argument, and whether all of its bits are known. */
static bool bytes_of(vpiHandle arg, uint8_t *to, size_t length) {
    s_vpi_value v = {.format = vpiVectorVal};
    memset(to, 0, length);
    if (!arg)
        return false;
    size_t width = (size_t)vpi_get(vpiSize, arg);
    vpi_get_value(arg, &v);
    bool known = true;
    for (size_t i = 0; i < (width + 31) / 32; i++)
        known &= !v.value.vector[i].bval;
    for (size_t i = 0; i < length && i < (width + 7) / 8; i++)
        to[i] = (uint8_t)((uint32_t)v.value.vector[i / 4].aval >> (8 * (i % 4)));
    return known;
}

static bool number(vpiHandle arg, uint64_t *to) {
    uint8_t bytes[8];
    bool known = bytes_of(arg, bytes, 8);
    *to = 0;
    for (int i = 0; i < 8; i++)
        *to |= (uint64_t)bytes[i] << (8 * i);
    return known;
}

static void put(vpiHandle arg, const uint8_t *from, size_t length) {
    if (!arg)
        return;
    size_t words = ((size_t)vpi_get(vpiSize, arg) + 31) / 32;
    s_vpi_vecval *held = calloc(words, sizeof *held);
    s_vpi_value v = {.format = vpiVectorVal, .value.vector = held};
    if (!held)
        return;
    for (size_t i = 0; i < length && i / 4 < words; i++) {
        uint32_t byte = (uint32_t)from[i] << (8 * (i % 4));
        held[i / 4].aval = (PLI_INT32)((uint32_t)held[i / 4].aval | byte);
    }
    vpi_put_value(arg, &v, NULL, vpiNoDelay);
    free(held);
}

static void put_number(vpiHandle arg, uint64_t n) {
    uint8_t bytes[8];
    for (int i = 0; i < 8; i++)
        bytes[i] = (uint8_t)(n >> (8 * i));
    put(arg, bytes, 8);
}

static PLI_INT32 answer(const args *a, uint32_t status) {
    s_vpi_value v = {.format = vpiIntVal, .value.integer = (PLI_INT32)status};
    vpi_put_value(a->call, &v, NULL, vpiNoDelay);
    return 0;
}

static int network_of(const args *a) {
    uint64_t n;
    if (!a->count || !number(a->arg[0], &n) || n < 1 || n > MOST || !networks[n - 1])
        return -1;
    return (int)n - 1;
}

static PLI_INT32 open_call(PLI_BYTE8 *data) {
    (void)data;
    args a = take();
    s_vpi_value v = {.format = vpiStringVal};
    int at = 0;
    while (at < MOST && networks[at])
        at++;
    if (a.count != 1 || at == MOST)
        return answer(&a, 0);
    vpi_get_value(a.arg[0], &v);
    FILE *file = fopen(v.value.str, "rb");
    uint8_t *text = file ? malloc(MOST_BYTES + 1) : NULL, status;
    if (text) {
        size_t length = fread(text, 1, MOST_BYTES + 1, file);
        networks[at] = hmc_driver_open(text, length, &status);
    }
    free(text);
    if (file)
        fclose(file);
    return answer(&a, networks[at] ? (uint32_t)at + 1 : 0);
}

static PLI_INT32 request_call(PLI_BYTE8 *data) {
    (void)data;
    args a = take();
    int at = network_of(&a);
    uint64_t host, code, cube, address, length, id;
    uint8_t payload[256];
    if (at < 0)
        return answer(&a, HMC_CLOSED);
    if (a.count != 8 || !number(a.arg[1], &host) || !number(a.arg[2], &code) ||
        !number(a.arg[3], &cube) || !number(a.arg[4], &address) || !number(a.arg[6], &length) ||
        !number(a.arg[7], &id) || host > 255 || code > 255 || cube > 255 || length > 256)
        return answer(&a, HMC_BAD);
    if (!bytes_of(a.arg[5], payload, length) && length)
        return answer(&a, HMC_BAD); /* an x or a z in the payload */
    return answer(&a, hmc_driver_request(networks[at], (uint8_t)host, (uint8_t)code, (uint8_t)cube,
                                         address, payload, length, id));
}

static PLI_INT32 go_call(PLI_BYTE8 *data) {
    (void)data;
    args a = take();
    int at = network_of(&a);
    uint64_t id;
    hmc_entry_t entry;
    if (at < 0)
        return answer(&a, HMC_CLOSED);
    uint8_t status = hmc_driver_go(networks[at], &id, &entry);
    if (status == HMC_OK) {
        put_number(a.arg[1], id);
        put_number(a.arg[2], entry.answer);
        put_number(a.arg[3], entry.flag);
        put_number(a.arg[4], entry.value);
        put_number(a.arg[5], entry.returned_length);
        put(a.arg[6], entry.returned, entry.returned_length);
    }
    return answer(&a, status);
}

static PLI_INT32 step_call(PLI_BYTE8 *data) {
    (void)data;
    args a = take();
    int at = network_of(&a);
    uint64_t n[4], id;
    uint8_t mask[16];
    bool done;
    hmc_entry_t entry;
    if (at < 0)
        return answer(&a, HMC_CLOSED);
    for (int i = 0; i < 4; i++)
        if (a.count != 6 || !number(a.arg[i + 1], &n[i]) || n[i] > 255)
            return answer(&a, HMC_BAD);
    if (!bytes_of(a.arg[5], mask, 16))
        return answer(&a, HMC_BAD);
    return answer(&a, hmc_driver_step(networks[at], (uint8_t)n[0], (uint8_t)n[1], (uint8_t)n[2],
                                      (uint8_t)n[3], mask, &done, &id, &entry));
}

static PLI_INT32 line_call(PLI_BYTE8 *data) {
    (void)data;
    args a = take();
    int at = network_of(&a);
    size_t length = 0;
    if (at < 0)
        return 0;
    if (hmc_line(hmc_driver_session(networks[at]), (uint8_t *)lines[at], sizeof lines[at] - 1,
                 &length) != HMC_OK)
        length = 0;
    lines[at][length] = 0;
    if (length && lines[at][length - 1] == '\n')
        lines[at][length - 1] = 0;
    vpi_printf("%s\n", lines[at]);
    return 0;
}

static PLI_INT32 at_end(struct t_cb_data *data) {
    (void)data;
    for (int i = 0; i < MOST; i++) {
        hmc_driver_close(networks[i]);
        networks[i] = NULL;
    }
    return 0;
}

static void register_all(void) {
    static s_vpi_systf_data calls[] = {
        {vpiSysFunc, vpiIntFunc, "$hmc_open", open_call, NULL, NULL, NULL},
        {vpiSysFunc, vpiIntFunc, "$hmc_request", request_call, NULL, NULL, NULL},
        {vpiSysFunc, vpiIntFunc, "$hmc_go", go_call, NULL, NULL, NULL},
        {vpiSysFunc, vpiIntFunc, "$hmc_step", step_call, NULL, NULL, NULL},
        {vpiSysTask, 0, "$hmc_line", line_call, NULL, NULL, NULL},
    };
    static s_cb_data end = {.reason = cbEndOfSimulation, .cb_rtn = at_end};
    for (size_t i = 0; i < sizeof calls / sizeof *calls; i++)
        vpi_register_systf(&calls[i]);
    vpi_register_cb(&end);
}

void (*vlog_startup_routines[])(void) = {register_all, NULL};
