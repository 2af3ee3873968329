/* A driver: a session (hmc.h) that is stepped round by round, and whose requests have numbers of
 * the caller's, so that each answer is found with its request.
 *
 * It is plain C over hmc.h, tested and not proved; every step that it takes is a call of hmc_step.
 * A driver is for one thread at a time, and drivers share nothing. Memory comes from malloc.
 *
 *     uint8_t status;
 *     uint64_t id;
 *     hmc_entry_t entry;
 *     hmc_driver *d = hmc_driver_open(text, length, &status);    a case without requests
 *     hmc_driver_request(d, 0, 48, 0, 0x40, NULL, 0, 7);         host 0 reads 16 bytes: number 7
 *     while ((status = hmc_driver_go(d, &id, &entry)) == HMC_NONE) {}
 *     ... here id is 7, and entry.returned has the bytes ...
 *     hmc_driver_close(d);
 */
#ifndef HMC_DRIVER_H
#define HMC_DRIVER_H

#include "hmc.h"

#ifdef __cplusplus
extern "C" {
#endif

typedef struct hmc_driver hmc_driver;

/* Opens a driver on a case whose script has no requests (docs/case.md). It takes one round, in
 * which it learns which parts the network has. NULL with a status: HMC_MEMORY, HMC_BAD (the text is
 * no case, or its script has requests). No null pointer. */
hmc_driver *hmc_driver_open(const uint8_t *text, size_t length, uint8_t *status);
/* The same with a tape, which hmc_driver_save writes. First it retires slots 0 and 1: they are empty
 * here, and the program that replays the tape has logic units there. HMC_BAD also where the keys
 * `script` and `schedule` of the case are spelled with escapes. Requests and steps take memory.
 * No null pointer. */
hmc_driver *hmc_driver_open_taped(const uint8_t *text, size_t length, uint8_t *status);
/* Writes the case that replays the driver so far to a file: the text that it was opened on, with
 * the tape in place of its script and its schedule. Its report begins with the lines of the session.
 * A tape past the limits of docs/case.md is written too. HMC_OK, HMC_MEMORY, HMC_NONE (there is no
 * tape, or the file can't be written: errno then says why). No null pointer. */
uint8_t hmc_driver_save(hmc_driver *d, const char *path);
/* Closes a driver and its session. NULL is allowed. */
void hmc_driver_close(hmc_driver *d);
/* Its session, for hmc_entry, hmc_line and the calls that only look. To step it or to ask it past
 * the driver spoils the pairing of answers with requests. No null pointer. */
hmc_session *hmc_driver_session(hmc_driver *d);
/* The hosts of the network, 1 to 8, and the steps of a round, up to 4,752. No null pointer. */
uint8_t hmc_driver_hosts(const hmc_driver *d);
uint32_t hmc_driver_steps_of_round(const hmc_driver *d);
/* The requests that were asked and are not done: neither answered nor, if posted, given.
 * No null pointer. */
uint64_t hmc_driver_waiting(const hmc_driver *d);

/* Asks a host for a request, as hmc_request does, without a fence or poison; `id` is any number.
 * `payload` may be NULL where `length` is 0; no other null pointer. The statuses are those of
 * hmc_request. */
uint8_t hmc_driver_request(hmc_driver *d, uint8_t host, uint8_t code, uint8_t cube,
                           uint64_t address, const uint8_t *payload, size_t length, uint64_t id);
/* Takes the next steps of the round, up to one with which a request is done: it is answered, or, if
 * posted, given.
 * HMC_OK: a request is done. `id` is its number, and `entry` its answer (kind HMC_TOOK), or of a
 * posted request what was given (kind HMC_GAVE).
 * HMC_NONE: the round has ended, and the next call begins another.
 * HMC_PASSED: a landing passed, of a packet whose flits a mask had changed.
 * HMC_OVER: no step may be taken any more.
 * HMC_MEMORY: the tape is out of memory. The next call tries the step again. No null pointer. */
uint8_t hmc_driver_go(hmc_driver *d, uint64_t *id, hmc_entry_t *entry);
/* Takes a step of the caller's own; the driver's round goes on afterwards where it was. The statuses
 * are those of hmc_step. `is_done` says whether the step did a request: only then do `id` and `entry`
 * mean something. No null pointer. */
uint8_t hmc_driver_step(hmc_driver *d, uint8_t kind, uint8_t a, uint8_t b, uint8_t c,
                        const uint8_t mask[16], bool *is_done, uint64_t *id, hmc_entry_t *entry);

#ifdef __cplusplus
}
#endif
#endif
