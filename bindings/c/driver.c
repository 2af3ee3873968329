/* Drivers: see hmc_driver.h. */
#include "hmc_driver.h"

#include <errno.h>
#include <stdio.h>
#include <stdlib.h>
#include <string.h>

enum {
    MOST_HOSTS = 8,
    MOST_DIRECTIONS = 64,
    MOST_CUBES = 8,
    PORTS = 4,
    MOST_VAULTS = 32,
    MOST_BANKS = 16,
    TAGS = 2048,
    /* give, send, land, shift, spread, bank, registers, lift (also of registers), take */
    MOST_STEPS = MOST_HOSTS + 2 * MOST_DIRECTIONS + MOST_CUBES * PORTS + MOST_CUBES * MOST_VAULTS +
                 MOST_CUBES * MOST_VAULTS * MOST_BANKS + MOST_CUBES +
                 MOST_CUBES * (MOST_VAULTS + 1) + MOST_HOSTS
};

typedef struct {
    uint8_t kind, a, b, c;
} part_step;

/* The numbers of requests that a host was asked for and hasn't given, the first one first. */
typedef struct {
    uint64_t *ids;
    size_t first, count, room;
} id_queue;

/* A part of a text. */
typedef struct {
    size_t start, end;
} span;

struct hmc_driver {
    hmc_session session;
    uint8_t *text; /* of the case, where there is a tape */
    size_t length;
    span script, schedule; /* their values in the text */
    part_step steps[MOST_STEPS]; /* of a round */
    uint32_t count, at;          /* their number, and the next one */
    uint8_t hosts;
    bool is_out_of_memory; /* in the first round */
    uint64_t waiting;
    id_queue asked[MOST_HOSTS];
    uint64_t given[MOST_HOSTS][TAGS]; /* by host and tag */
};

static const uint8_t no_mask[16] = {0};

/* Makes room for one number more. False: out of memory. */
static bool grow(id_queue *queue) {
    if (queue->count < queue->room)
        return true;
    size_t room = queue->room ? 2 * queue->room : 16;
    uint64_t *ids = malloc(room * sizeof *ids);
    if (!ids)
        return false;
    for (size_t i = 0; i < queue->count; i++)
        ids[i] = queue->ids[(queue->first + i) % queue->room];
    free(queue->ids);
    *queue = (id_queue){ids, 0, queue->count, room};
    return true;
}

static void append(id_queue *queue, uint64_t id) {
    queue->ids[(queue->first + queue->count++) % queue->room] = id;
}

static uint64_t take_first(id_queue *queue) {
    uint64_t id = queue->ids[queue->first];
    queue->first = (queue->first + 1) % queue->room;
    queue->count--;
    return id;
}

/* Tries a step; where the network has such a part, the step is one of a round. */
static uint8_t try_part(hmc_driver *d, uint8_t kind, uint8_t a, uint8_t b, uint8_t c) {
    uint8_t status = hmc_step(&d->session, kind, a, b, c, no_mask);
    if (status == HMC_OK || status == HMC_WAITS)
        d->steps[d->count++] = (part_step){kind, a, b, c};
    d->is_out_of_memory |= status == HMC_MEMORY;
    return status;
}

/* Tries the hosts. A host that gives something was asked by the script of the case. */
static bool try_hosts(hmc_driver *d) {
    for (uint8_t host = 0; host < MOST_HOSTS; host++) {
        uint8_t status = try_part(d, HMC_GIVE, host, 0, 0);
        if (status == HMC_WAITS)
            d->hosts++;
        else if (status != HMC_NONE)
            return false;
    }
    return true;
}

/* Tries the steps of one kind that a cube and a part of it name. */
static void try_parts(hmc_driver *d, uint8_t kind, uint8_t parts) {
    for (uint8_t cube = 0; cube < MOST_CUBES; cube++)
        for (uint8_t part = 0; part < parts; part++)
            try_part(d, kind, cube, part, 0);
}

static void try_banks(hmc_driver *d) {
    for (uint8_t cube = 0; cube < MOST_CUBES; cube++)
        for (uint8_t vault = 0; vault < MOST_VAULTS; vault++)
            for (uint8_t bank = 0; bank < MOST_BANKS; bank++)
                try_part(d, HMC_BANK, cube, vault, bank);
}

static void try_lifts(hmc_driver *d) {
    for (uint8_t cube = 0; cube < MOST_CUBES; cube++) {
        for (uint8_t vault = 0; vault < MOST_VAULTS; vault++)
            try_part(d, HMC_LIFT, cube, vault, 0);
        try_part(d, HMC_LIFT, cube, HMC_REGISTERS_OF, 0);
    }
}

static void try_each(hmc_driver *d, uint8_t kind, uint8_t parts) {
    for (uint8_t part = 0; part < parts; part++)
        try_part(d, kind, part, 0, 0);
}

/* Takes the first round, and notes its steps. HMC_OK, HMC_MEMORY, HMC_BAD (there are requests). */
static uint8_t take_first_round(hmc_driver *d) {
    if (!try_hosts(d))
        return d->is_out_of_memory ? HMC_MEMORY : HMC_BAD;
    try_each(d, HMC_SEND, MOST_DIRECTIONS);
    try_each(d, HMC_LAND, MOST_DIRECTIONS);
    try_parts(d, HMC_SHIFT, PORTS);
    try_parts(d, HMC_SPREAD, MOST_VAULTS);
    try_banks(d);
    try_each(d, HMC_REGISTERS, MOST_CUBES);
    try_lifts(d);
    try_each(d, HMC_TAKE, MOST_HOSTS);
    return d->is_out_of_memory ? HMC_MEMORY : HMC_OK;
}

/* The driver after its first round, where it is opened; else it is closed. */
static hmc_driver *begun(hmc_driver *d, uint8_t *status) {
    if (*status == HMC_OK)
        *status = take_first_round(d);
    if (*status == HMC_OK)
        return d;
    hmc_driver_close(d);
    return NULL;
}

hmc_driver *hmc_driver_open(const uint8_t *text, size_t length, uint8_t *status) {
    hmc_driver *d = calloc(1, sizeof *d);
    *status = d ? hmc_open(text, length, &d->session) : HMC_MEMORY;
    return begun(d, status);
}

/* What is read of the text of a case, which is a TOML document. */
typedef struct {
    const uint8_t *text;
    size_t length, at;
} reader;

/* Whether these letters come next. */
static bool has_next(const reader *r, const char *letters) {
    size_t count = strlen(letters);
    return r->length - r->at >= count && memcmp(r->text + r->at, letters, count) == 0;
}

/* Passes what is before one of these letters. */
static void skip_to(reader *r, const char *letters) {
    while (r->at < r->length && !strchr(letters, r->text[r->at]))
        r->at++;
}

/* Passes the string that begins here with a quote: on one line, or on several. */
static void skip_string(reader *r) {
    const char quote = (char)r->text[r->at];
    const char three[] = {quote, quote, quote, 0}, one[] = {quote, 0};
    const char *end = has_next(r, three) ? three : one;
    r->at += strlen(end);
    while (r->at < r->length && !has_next(r, end)) {
        bool is_escape = quote == '"' && r->text[r->at] == '\\' && r->length - r->at > 1;
        r->at += is_escape ? 2 : 1;
    }
    r->at += r->at < r->length ? strlen(end) : 0;
    /* The last ones of three or more quotes are the end. */
    while (end == three && has_next(r, one))
        r->at++;
}

/* Passes the value that begins here, up to what is after it. */
static void skip_value(reader *r) {
    size_t depth = 0;
    while (r->at < r->length) {
        uint8_t letter = r->text[r->at];
        if (letter == '"' || letter == '\'') {
            skip_string(r);
            if (depth == 0)
                return;
            continue;
        }
        if (letter == '#')
            skip_to(r, "\n");
        else if (letter == '\n' && depth == 0)
            return;
        else
            r->at++;
        depth += letter == '[' || letter == '{';
        depth -= letter == ']' || letter == '}';
    }
}

/* Passes a key and the sign after it, up to its value. Quotes are no part of it. */
static span read_key(reader *r) {
    bool is_quoted = r->text[r->at] == '"' || r->text[r->at] == '\'';
    size_t start = r->at;
    if (is_quoted)
        skip_string(r);
    else
        skip_to(r, " \t=");
    span key = {start + is_quoted, r->at - is_quoted};
    skip_to(r, "=");
    r->at += r->at < r->length;
    while (has_next(r, " ") || has_next(r, "\t"))
        r->at++;
    return key;
}

static bool is_key(const reader *r, span key, const char *name) {
    size_t length = key.end - key.start;
    return length == strlen(name) && memcmp(r->text + key.start, name, length) == 0;
}

/* Finds the values of script and schedule: they are before the first table of a case. */
static bool find_texts(hmc_driver *d) {
    reader r = {d->text, d->length, 0};
    if (has_next(&r, "\xef\xbb\xbf"))
        r.at += 3;
    while (r.at < r.length && r.text[r.at] != '[') {
        if (r.text[r.at] == '#') {
            skip_to(&r, "\n");
        } else if (strchr(" \t\r\n", r.text[r.at])) {
            r.at++;
        } else {
            span key = read_key(&r), value = {r.at, 0};
            skip_value(&r);
            value.end = r.at;
            if (is_key(&r, key, "script"))
                d->script = value;
            else if (is_key(&r, key, "schedule"))
                d->schedule = value;
        }
    }
    return d->script.end && d->schedule.end;
}

/* Opens the session on a copy of the text, and retires what the program has in its slots. */
static uint8_t open_taped(hmc_driver *d, const uint8_t *text, size_t length) {
    static const hmc_unit_t none = {0};
    uint8_t status = hmc_open_taped(text, length, &none, 0, &d->session);
    if (status != HMC_OK)
        return status;
    if (!(d->text = malloc(length)))
        return HMC_MEMORY;
    memcpy(d->text, text, length);
    d->length = length;
    if (!find_texts(d))
        return HMC_BAD;
    for (uint8_t slot = 0; slot < 2 && status == HMC_OK; slot++)
        status = hmc_step(&d->session, HMC_RETIRE, slot, 0, 0, no_mask);
    return status;
}

hmc_driver *hmc_driver_open_taped(const uint8_t *text, size_t length, uint8_t *status) {
    hmc_driver *d = calloc(1, sizeof *d);
    *status = d ? open_taped(d, text, length) : HMC_MEMORY;
    return begun(d, status);
}

typedef uint8_t tape_call(hmc_session *, uint8_t *, size_t, size_t *);

/* Writes a text of the tape as a string of the case. */
static uint8_t put_text(hmc_driver *d, FILE *file, tape_call *call) {
    size_t length = 0;
    uint8_t none, status = call(&d->session, &none, 0, &length);
    uint8_t *bytes = malloc(length + 1);
    if (!bytes)
        return HMC_MEMORY;
    status = call(&d->session, bytes, length + 1, &length);
    fputs("'''\n", file);
    fwrite(bytes, 1, length, file);
    fputs("'''", file);
    free(bytes);
    return status;
}

/* Writes the part of the case up to a place, and goes on there. */
static void put_part(const hmc_driver *d, FILE *file, size_t *at, size_t end) {
    fwrite(d->text + *at, 1, end - *at, file);
    *at = end;
}

/* Writes the case with the tape in it, its texts in their order. */
static uint8_t put_case(hmc_driver *d, FILE *file) {
    bool is_script_first = d->script.start < d->schedule.start;
    span spans[2] = {is_script_first ? d->script : d->schedule,
                     is_script_first ? d->schedule : d->script};
    size_t at = 0;
    uint8_t status = HMC_OK;
    for (int i = 0; i < 2 && status == HMC_OK; i++) {
        bool is_script = is_script_first == (i == 0);
        put_part(d, file, &at, spans[i].start);
        status = put_text(d, file, is_script ? hmc_tape_script : hmc_tape_schedule);
        at = spans[i].end;
    }
    put_part(d, file, &at, d->length);
    return status;
}

uint8_t hmc_driver_save(hmc_driver *d, const char *path) {
    if (!d->text) {
        errno = EINVAL;
        return HMC_NONE;
    }
    FILE *file = fopen(path, "wb");
    if (!file)
        return HMC_NONE;
    uint8_t status = put_case(d, file);
    bool is_written = !ferror(file);
    return fclose(file) == 0 && is_written ? status : HMC_NONE;
}

void hmc_driver_close(hmc_driver *d) {
    if (!d)
        return;
    hmc_close(&d->session);
    free(d->text);
    for (int host = 0; host < MOST_HOSTS; host++)
        free(d->asked[host].ids);
    free(d);
}

hmc_session *hmc_driver_session(hmc_driver *d) {
    return &d->session;
}

uint8_t hmc_driver_hosts(const hmc_driver *d) {
    return d->hosts;
}

uint32_t hmc_driver_steps_of_round(const hmc_driver *d) {
    return d->count;
}

uint64_t hmc_driver_waiting(const hmc_driver *d) {
    return d->waiting;
}

uint8_t hmc_driver_request(hmc_driver *d, uint8_t host, uint8_t code, uint8_t cube,
                           uint64_t address, const uint8_t *payload, size_t length, uint64_t id) {
    if (host < MOST_HOSTS && !grow(&d->asked[host]))
        return HMC_MEMORY;
    uint8_t status = hmc_request(&d->session, host, false, false, code, cube, address,
                                 length ? payload : no_mask, length);
    if (status == HMC_OK) {
        append(&d->asked[host], id);
        d->waiting++;
    }
    return status;
}

/* Notes what the latest step did to a request. True: a request is done. */
static bool note(hmc_driver *d, uint64_t *id, hmc_entry_t *entry) {
    if (hmc_entry(&d->session, entry) != HMC_OK)
        return false;
    if (entry->kind == HMC_GAVE) {
        uint64_t given = take_first(&d->asked[entry->a]);
        if (entry->tag != HMC_NO_TAG) {
            d->given[entry->a][entry->tag] = given;
            return false;
        }
        *id = given;
    } else if (entry->kind == HMC_TOOK) {
        *id = d->given[entry->a][entry->tag];
    } else {
        return false;
    }
    d->waiting--;
    return true;
}

uint8_t hmc_driver_step(hmc_driver *d, uint8_t kind, uint8_t a, uint8_t b, uint8_t c,
                        const uint8_t mask[16], bool *is_done, uint64_t *id, hmc_entry_t *entry) {
    uint8_t status = hmc_step(&d->session, kind, a, b, c, mask);
    /* Only a give gives a request, and only a take takes an answer. */
    *is_done = status == HMC_OK && (kind == HMC_GIVE || kind == HMC_TAKE) && note(d, id, entry);
    return status;
}

uint8_t hmc_driver_go(hmc_driver *d, uint64_t *id, hmc_entry_t *entry) {
    while (d->at < d->count) {
        const part_step *step = &d->steps[d->at];
        bool is_done;
        uint8_t status = hmc_driver_step(d, step->kind, step->a, step->b, step->c, no_mask,
                                         &is_done, id, entry);
        if (status != HMC_OK && status != HMC_WAITS)
            return status;
        d->at++;
        if (is_done)
            return HMC_OK;
    }
    d->at = 0;
    return HMC_NONE;
}
