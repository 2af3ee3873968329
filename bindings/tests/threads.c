/* Two threads with a driver each: the same requests have the same answers as on one thread.
 * Usage: threads CASE, a case without requests. */
#include "hmc_driver.h"

#include <pthread.h>
#include <stdio.h>
#include <stdlib.h>
#include <string.h>

enum { MOST_TEXT = 65536, THREADS = 2, REQUESTS = 3000, RD16 = 48, WR16 = 8 };

static uint8_t text[MOST_TEXT];
static size_t text_length;

typedef struct {
    unsigned seed;
    uint32_t check;      /* of all answers, in their order */
    uint8_t status;      /* of the call that failed, else 0 */
} traffic;

static void ask(hmc_driver *d, traffic *t, uint64_t id) {
    uint8_t bytes[16];
    t->seed = t->seed * 1103515245u + 12345u;
    unsigned number = t->seed >> 8;
    memset(bytes, (int)(number & 255), sizeof bytes);
    bool is_read = number >> 8 & 1;
    t->status |= hmc_driver_request(d, 0, is_read ? RD16 : WR16, number >> 9 & 1,
                                    16 * (number >> 10 & 63), bytes, is_read ? 0 : 16, id);
}

static void add(traffic *t, uint64_t id, const hmc_entry_t *entry) {
    uint8_t all[28] = {0};
    memcpy(all, &t->check, 4);
    memcpy(all + 4, &id, 8);
    memcpy(all + 12, entry->returned, 16);
    t->check = hmc_crc(all, sizeof all);
}

static void *run(void *at) {
    traffic *t = at;
    uint64_t id;
    hmc_entry_t entry;
    hmc_driver *d = hmc_driver_open(text, text_length, &t->status);
    for (uint64_t asked = 0; d && (asked < REQUESTS || hmc_driver_waiting(d)); asked++) {
        if (asked < REQUESTS)
            ask(d, t, asked);
        while (hmc_driver_go(d, &id, &entry) == HMC_OK)
            add(t, id, &entry);
    }
    hmc_driver_close(d);
    return NULL;
}

int main(int count, char **words) {
    FILE *file = count == 2 ? fopen(words[1], "rb") : NULL;
    if (!file)
        return 2;
    text_length = fread(text, 1, sizeof text, file);
    fclose(file);
    traffic alone[THREADS] = {{1, 0, 0}, {2, 0, 0}}, together[THREADS] = {{1, 0, 0}, {2, 0, 0}};
    pthread_t threads[THREADS];
    int wrong = 0;
    for (int i = 0; i < THREADS; i++)
        run(&alone[i]);
    for (int i = 0; i < THREADS; i++)
        if (pthread_create(&threads[i], NULL, run, &together[i]))
            return 2;
    for (int i = 0; i < THREADS; i++) {
        pthread_join(threads[i], NULL);
        wrong += together[i].status || !together[i].check || together[i].check != alone[i].check;
    }
    printf("%d threads, %d requests each, %d wrong\n", THREADS, REQUESTS, wrong);
    return wrong != 0 || alone[0].check == alone[1].check;
}
