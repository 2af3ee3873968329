/* A driver of a network with two hosts. Each writes bytes of its own, and reads what the other one
 * wrote: each answer comes with the number of its request, and to the host that asked.
 * Usage: two_hosts CASE, a case of two hosts and three cubes without requests. */
#include "hmc_driver.h"

#include <stdio.h>
#include <stdlib.h>
#include <string.h>

enum { RD16 = 48, WR16 = 8, ROUNDS = 4000 };

static void want(long long got, long long wanted, const char *what) {
    if (got != wanted) {
        fprintf(stderr, "%s: %lld and not %lld\n", what, got, wanted);
        exit(1);
    }
}

/* Waits for the requests with the numbers of two hosts, in either order; the answer of a host. */
static void both(hmc_driver *d, uint64_t first, hmc_entry_t answers[2]) {
    bool done[2] = {false, false};
    uint64_t id = 0;
    hmc_entry_t entry;
    for (int rounds = 0; rounds < ROUNDS && !(done[0] && done[1]);) {
        uint8_t status = hmc_driver_go(d, &id, &entry);
        if (status == HMC_NONE) {
            rounds++;
            continue;
        }
        want(status, HMC_OK, "go");
        want(id == first || id == first + 1, 1, "the number of a request");
        size_t host = (size_t)(id - first);
        want(done[host], false, "a request that was done");
        want(entry.kind, HMC_TOOK, "the kind of an answer");
        want(entry.a, (long long)host, "the host that took the answer");
        done[host] = true;
        answers[host] = entry;
    }
    want(done[0] && done[1], true, "both are done");
    want((long long)hmc_driver_waiting(d), 0, "waiting");
}

int main(int count, char **words) {
    static uint8_t text[65536];
    uint8_t bytes[2][16], status;
    hmc_entry_t answers[2];
    if (count != 2)
        return 2;
    FILE *file = fopen(words[1], "rb");
    if (!file)
        return 2;
    size_t length = fread(text, 1, sizeof text, file);
    fclose(file);
    hmc_driver *d = hmc_driver_open(text, length, &status);
    want(d != NULL, 1, "open");
    want(hmc_driver_hosts(d), 2, "hosts");
    for (uint8_t host = 0; host < 2; host++) {
        memset(bytes[host], 0x30 + host, 16);
        want(hmc_driver_request(d, host, WR16, 2, 16u * host, bytes[host], 16, 70u + host), HMC_OK,
             "a write");
    }
    want((long long)hmc_driver_waiting(d), 2, "waiting");
    both(d, 70, answers);
    want(hmc_driver_request(d, 2, RD16, 0, 0, NULL, 0, 1), HMC_NO_HOST, "no host");
    for (uint8_t host = 0; host < 2; host++)
        want(hmc_driver_request(d, host, RD16, 2, 16u * (1u - host), NULL, 0, 80u + host), HMC_OK,
             "a read");
    both(d, 80, answers);
    for (int host = 0; host < 2; host++) {
        want(answers[host].returned_length, 16, "the bytes of a read");
        want(memcmp(answers[host].returned, bytes[1 - host], 16), 0, "what the other host wrote");
    }
    hmc_driver_close(d);
    printf("2 hosts, 4 requests\n");
    return 0;
}
