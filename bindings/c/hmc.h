/* A network of Hybrid Memory Cubes, asked for requests and stepped while it runs.
 *
 * A handle begins as zeros, and is closed: hmc_session s = {0}; hmc_open opens it on a case. Only
 * these calls write a handle, one at a time, and a copy of one is no second handle. Handles share
 * nothing. No call keeps a pointer, ends the program, or writes a global variable. Memory comes
 * from malloc, realloc and free; after hmc_open only calls whose comment has HMC_MEMORY take any.
 *
 * What a call returns is its status; its comment has those that it can return. With a status other
 * than HMC_OK, HMC_PASSED and HMC_UNLAWFUL it did nothing, except that hmc_next and hmc_run take a
 * step that is refused off the list, and that hmc_run may have taken steps before: `steps` counts
 * them. What a call would write through a pointer isn't written then, except that `written` is 0,
 * and a length as is said. "No null pointer" in a comment: what the call does with one is undefined,
 * also where a length is 0.
 * Numbers of hosts, cubes, ports, vaults, banks and directions begin with 0. docs/c-library.md says
 * more.
 *
 * Stack: with a valid case each call was seen to need less than 64 KB. A text that is no case may
 * nest keys and tables so deep that a call which reads it needs 1.5 MB: open texts of unknown origin
 * on a thread that has 2 MB. With less a call ends the program, by SIGSEGV.
 *
 *     hmc_session s = {0};
 *     hmc_entry_t entry;
 *     uint32_t steps;
 *     hmc_open(text, length, &s);                             a case without requests
 *     hmc_ask(&s, (const uint8_t *)"0 rd16 0 0x40", 13);      host 0 reads 16 bytes of cube 0
 *     hmc_lay(&s, (const uint8_t *)"round 1000", 10);
 *     hmc_run(&s, 1000000, 1u << HMC_TOOK, &steps);           on to the answer
 *     hmc_entry(&s, &entry);                                  entry.returned has the bytes
 *     hmc_close(&s);
 */
#ifndef HMC_H
#define HMC_H

#include <stdbool.h>
#include <stddef.h>
#include <stdint.h>

/* The version of these calls: docs/release.md says what raises it. A program that finds another one
 * by hmc_version() was compiled with the header of another library. */
#define HMC_VERSION 1

#ifdef __cplusplus
extern "C" {
#endif

typedef struct {
    void *at;
} hmc_session;

/* Statuses. */
enum {
    HMC_OK = 0,
    HMC_MEMORY = 1,    /* out of memory */
    HMC_BAD = 6,       /* the text is no case, no request or no schedule, or the numbers are no
                          request */
    HMC_PASSED = 7,    /* the step was taken, and a check succeeded over flits that masks changed:
                          no step may follow */
    HMC_NONE = 8,      /* there is no such step or part, no step is left, or there is no entry, no
                          tape, no fault, no such logic unit, or no room */
    HMC_CLOSED = 9,    /* the handle is closed */
    HMC_WAITS = 10,    /* a give of a host that gave all of its requests and may be asked for more:
                          it isn't taken */
    HMC_OVER = 11,     /* a landing passed before, or 4,294,967,295 steps were taken */
    HMC_NO_HOST = 12,  /* there is no such host */
    HMC_NO_CUBE = 13,  /* there is no such cube */
    HMC_FINISHED = 14, /* the host is finished */
    HMC_FULL = 15,     /* the host was asked for 4,294,967,295 requests */
    /* The first test that the flits of a packet fail: */
    HMC_BAD_LENGTH = 16,   /* as many flits as the first one says */
    HMC_BAD_COMMAND = 17,  /* a command of this length has this code */
    HMC_BAD_RESERVED = 18, /* the bits that must be 0 are */
    HMC_BAD_CRC = 19,      /* the check is that of the bytes before it, or its inverse */
    HMC_UNLAWFUL = 20      /* the report is not that of the case */
};

/* The name of a status. */
static inline const char *hmc_status_name(uint8_t status) {
    static const char *const names[21] = {
        "ok",         "memory",      "?",            "?",       "?",        "?",       "bad",
        "passed",     "none",        "closed",       "waits",   "over",     "no host", "no cube",
        "finished",   "full",        "bad length",   "bad command",
        "bad reserved", "bad crc",   "unlawful",
    };
    return status < 21 ? names[status] : "?";
}

/* The name of a section that a fault is in. */
static inline const char *hmc_section_name(uint8_t section) {
    static const char *const names[7] = {"toml", "top",    "cube",    "net",
                                         "link", "script", "schedule"};
    return section < 7 ? names[section] : "?";
}

/* Kinds of steps, each with the numbers of its words: a, b, c in this order. */
enum {
    HMC_GIVE = 0,      /* host */
    HMC_SEND = 1,      /* direction */
    HMC_LAND = 2,      /* direction; the mask's bits are inverted in the flit */
    HMC_SHIFT = 3,     /* cube, port */
    HMC_SPREAD = 4,    /* cube, vault */
    HMC_BANK = 5,      /* cube, vault, bank */
    HMC_REGISTERS = 6, /* cube */
    HMC_LIFT = 7,      /* cube, vault; HMC_REGISTERS_OF in place of a vault for the registers */
    HMC_TAKE = 8,      /* host */
    HMC_THROUGH = 9,   /* cube, port */
    HMC_UNLOCK = 10,   /* direction */
    HMC_RETIRE = 11    /* slot */
};

/* In place of the number of a vault: the registers of the cube. */
#define HMC_REGISTERS_OF 255
/* In place of a tag: none. */
#define HMC_NO_TAG 65535

/* Kinds of entries, each with its a, b, c. */
enum {
    HMC_GAVE = 1,            /* host */
    HMC_SENT = 2,            /* direction */
    HMC_LANDED = 3,          /* direction */
    HMC_SHIFTED = 4,         /* cube, port, and a vault; with flag set a port */
    HMC_DROPPED = 5,         /* cube, port */
    HMC_SPREAD_TO = 6,       /* cube, vault, bank */
    HMC_EXECUTED = 7,        /* cube, vault, bank */
    HMC_LIFTED = 8,          /* cube, vault, port */
    HMC_TOOK = 9,            /* host */
    HMC_DISCARDED = 10,      /* host */
    HMC_WENT_THROUGH = 11,   /* cube, port, direction */
    HMC_UNLOCKED = 12,       /* direction */
    HMC_RETIRED = 13,        /* slot */
    HMC_LANDING_PASSED = 14, /* direction */
    HMC_IDLE = 15            /* the numbers of the step */
};

/* The latest entry. What an entry of its kind hasn't is 0, and a tag HMC_NO_TAG. */
typedef struct {
    uint64_t address;         /* of a request; the number of a register for mdrd and mdwr */
    uint32_t value;           /* of a register, or the number of an error */
    uint32_t length;          /* the bytes of payload that count */
    uint32_t returned_length; /* the bytes of returned that count */
    uint16_t tag;
    uint8_t kind;
    uint8_t a, b, c;
    uint8_t host;     /* of a request that was executed */
    uint8_t command;  /* the code of a request's command */
    uint8_t cube;     /* of a request */
    uint8_t answer;   /* 0 none, 1 done, 2 bytes, 3 a register's value, 4 stored, 5 an error */
    uint8_t cause;    /* why nothing was done: 1 ended, 2 fence, 3 tags, 4 empty, 5 full,
                         6 starved, 7 no packet, 8 busy */
    uint8_t step;     /* the kind of a step that did nothing */
    uint8_t what;     /* of a flit that was sent: 1 train, 2 clear, 3 start, 4 null, 5 pret, 6 tret,
                         7 new, 8 again */
    uint8_t outcome;  /* of a landing: 1 quiet, 2 trained, 3 gathered, 4 accepted, 5 poisoned,
                         6 repeat, 7 to 10 aborted for length, command, reserved, crc, 11 aborted
                         for order, 12 start, 13 clear */
    bool flag;        /* of an answer, or of a shift */
    bool poisoned;    /* of a request that was given */
    uint8_t flit[16]; /* of a send or a landing; the mask of a landing that did nothing */
    uint8_t payload[256];
    uint8_t returned[256]; /* the bytes of an answer */
} hmc_entry_t;

/* The kinds of logic units (docs/units.md). */
enum {
    HMC_REVERSE = 0, /* reverses blocks */
    HMC_STAMP = 1    /* numbers blocks */
};

/* A logic unit that never worked: it does the command `unit` with the number `code` of a cube. Both
 * are below 8. */
typedef struct {
    uint8_t kind;
    uint8_t cube;
    uint8_t code;
} hmc_unit_t;

/* A packet (docs/packets.md), with the return pointer that it is sent with. A field that a packet
 * of its command lacks is 0. */
typedef struct {
    uint64_t address; /* below 2^34 */
    uint32_t length;  /* the bytes of payload that count: as many as the command has */
    uint16_t tag;     /* below 2,048 */
    uint16_t frp;     /* the forward retry pointer: below 512, and in profile two below 2,048 */
    uint16_t rrp;     /* the return retry pointer, likewise; 0 of a NULL */
    uint8_t command;  /* the code of its command */
    uint8_t cube;     /* below 8 */
    uint8_t slid;     /* the host link of a request's host, below 8 */
    uint8_t errstat;  /* the number of an error: below 128, and in profile two below 8 */
    uint8_t rtc;      /* the code of the tokens that are returned, below 8 */
    uint8_t seq;      /* the sequence number, below 8 */
    bool flag;        /* of a response: whether an atomic command's condition held */
    bool poisoned;    /* whether its check is the inverse of the right one */
    uint8_t payload[256];
} hmc_packet_t;

/* The first fault of a text. */
typedef struct {
    uint32_t line;    /* of a cube or a link its number, from 0; of a script or a schedule its line,
                         from 1; else 0 */
    uint8_t section;  /* 0 toml, 1 top, 2 cube, 3 net, 4 link, 5 script, 6 schedule */
    uint8_t word[16]; /* what is wrong: a kind of docs/case.md, docs/script.md or docs/schedule.md,
                         or "one" or "utf8"; at most 8 letters, then zeros */
} hmc_fault_t;

/* The tokens of a direction; their sum is what its receiving end advertises. */
typedef struct {
    uint32_t held;      /* that its sender may still spend */
    uint32_t transit;   /* flits of requests and responses that were begun and are not accepted
                           yet */
    uint32_t used;      /* flits of packets in the receiving buffer */
    uint32_t due;       /* that the receiving end has to return */
    uint32_t returning; /* in packets of the other direction that are not accepted yet */
} hmc_tokens_t;

/* The counts of a direction. */
typedef struct {
    uint32_t sent;     /* flits sent */
    uint32_t landed;   /* flits landed */
    uint32_t changed;  /* of these, flits that a mask changed */
    uint32_t accepted; /* packets accepted, poisoned ones and returns of tokens included */
    uint32_t repeats;  /* packets that had been accepted before */
    uint32_t aborts;   /* landings with an error (outcome 7 to 11), and unlocks of a receiver that
                          accepted packets */
} hmc_counters_t;

/* The counts of a host. */
typedef struct {
    uint32_t given; /* requests given */
    uint32_t taken; /* answers taken */
    uint32_t out;   /* tags out */
} hmc_host_t;

/* The counts of a cube. */
typedef struct {
    uint32_t executed; /* requests executed */
    uint32_t dropped;  /* poisoned packets dropped */
} hmc_cube_t;

/* The library was compiled with these sizes. Where a compiler lays out structs otherwise, by a
 * pragma or for another kind of processor, it refuses this header. */
#if defined(__cplusplus) && __cplusplus >= 201103L
#define HMC_SIZE(type, bytes) static_assert(sizeof(type) == (bytes), #type)
#elif defined(__STDC_VERSION__) && __STDC_VERSION__ >= 201112L
#define HMC_SIZE(type, bytes) _Static_assert(sizeof(type) == (bytes), #type)
#else
#define HMC_SIZE(type, bytes) typedef char type##_size[sizeof(type) == (bytes) ? 1 : -1]
#endif
HMC_SIZE(hmc_session, 8);
HMC_SIZE(hmc_entry_t, 568);
HMC_SIZE(hmc_unit_t, 3);
HMC_SIZE(hmc_packet_t, 288);
HMC_SIZE(hmc_fault_t, 24);
HMC_SIZE(hmc_tokens_t, 20);
HMC_SIZE(hmc_counters_t, 24);
HMC_SIZE(hmc_host_t, 12);
HMC_SIZE(hmc_cube_t, 8);
#undef HMC_SIZE

/* ---- A handle ---- */

/* Opens a handle on a session of a case (docs/case.md) with no logic units: with the requests of
 * its script asked, the steps of its schedule laid down, and none of them taken. With HMC_OK what
 * the handle had is dropped; else the handle is as it was. HMC_OK, HMC_MEMORY, HMC_BAD.
 * No null pointer. */
uint8_t hmc_open(const uint8_t *text, size_t length, hmc_session *s);
/* The same with at most 8 logic units: the one at place i is in slot i. HMC_NONE: there are more,
 * or the numbers of one name no unit. HMC_OK, HMC_MEMORY, HMC_BAD, HMC_NONE. No null pointer. */
uint8_t hmc_open_with(const uint8_t *text, size_t length, const hmc_unit_t *units, size_t count,
                      hmc_session *s);
/* The same with a tape: the requests and the steps are kept as a script and a schedule, which
 * hmc_tape_script and hmc_tape_schedule write. Requests and steps take memory then. HMC_OK,
 * HMC_MEMORY, HMC_BAD, HMC_NONE. No null pointer. */
uint8_t hmc_open_taped(const uint8_t *text, size_t length, const hmc_unit_t *units, size_t count,
                       hmc_session *s);
/* Closes a handle; a closed one stays closed. No null pointer. */
void hmc_close(hmc_session *s);
/* The first fault of a text that is no case. HMC_OK, HMC_MEMORY, HMC_NONE (it is a case).
 * No null pointer. */
uint8_t hmc_fault(const uint8_t *text, size_t length, hmc_fault_t *out);

/* ---- Requests ---- */

/* Asks a host for one request more, in the words of a script (docs/script.md), as "0 rd16 0 0x40";
 * a fence of its host may be on a line before it. HMC_OK, HMC_MEMORY, HMC_BAD (also where there is
 * no such host or cube), HMC_CLOSED, HMC_FINISHED, HMC_FULL. No null pointer. */
uint8_t hmc_ask(hmc_session *s, const uint8_t *text, size_t length);
/* Asks a host for one request more: the code of its command (docs/packets.md), its cube, an
 * address below 2^34, and as many bytes as the command has, of which the first four count for mdwr.
 * HMC_OK, HMC_MEMORY, HMC_BAD, HMC_CLOSED, HMC_NO_HOST to HMC_FULL. No null pointer. */
uint8_t hmc_request(hmc_session *s, uint8_t host, bool fenced, bool poisoned, uint8_t code,
                    uint8_t cube, uint64_t address, const uint8_t *payload, size_t length);
/* From now on the host is asked for nothing more: a request for it is refused, and where it has
 * given all of its requests a give of it is taken, and does nothing. HMC_OK, HMC_CLOSED,
 * HMC_NO_HOST. No null pointer. */
uint8_t hmc_finish(hmc_session *s, uint8_t host);
/* The first fault of a text that hmc_ask finds bad: of section script; where it states no request,
 * or more than one, its line is 0 and its word "one"; where it isn't UTF-8, 0 and "utf8". HMC_OK,
 * HMC_MEMORY, HMC_CLOSED, HMC_NONE (it states one request). No null pointer. */
uint8_t hmc_ask_fault(hmc_session *s, const uint8_t *text, size_t length, hmc_fault_t *out);

/* ---- Steps ---- */

/* Takes the step of this kind (HMC_GIVE ..) with these numbers; of a landing with this mask, which
 * the other kinds don't read. HMC_MEMORY: the tape is out of memory. HMC_NONE: the network has no
 * such part. HMC_OK, HMC_MEMORY, HMC_PASSED, HMC_NONE, HMC_CLOSED, HMC_WAITS, HMC_OVER.
 * No null pointer. */
uint8_t hmc_step(hmc_session *s, uint8_t kind, uint8_t a, uint8_t b, uint8_t c,
                 const uint8_t mask[16]);
/* Lays down steps, in the words of a schedule (docs/schedule.md), as "round 100", in place of those
 * that are left. HMC_OK, HMC_MEMORY, HMC_BAD, HMC_CLOSED. No null pointer. */
uint8_t hmc_lay(hmc_session *s, const uint8_t *text, size_t length);
/* Takes the next of the steps that are laid down, as hmc_step does; one that is refused is off the
 * list too, and one that the tape has no memory for stays. HMC_OK, HMC_MEMORY, HMC_PASSED, HMC_NONE
 * (none is left), HMC_CLOSED, HMC_WAITS, HMC_OVER. No null pointer. */
uint8_t hmc_next(hmc_session *s);
/* Takes steps that are laid down, and tries at most so many, up to an entry whose kind k has the
 * bit k set in `stops`, as 1u << HMC_TOOK; one that waits is passed over. `steps` is how many were
 * taken. HMC_OK (the latest entry is of such a kind, or so many were tried), HMC_MEMORY (the tape
 * is out of memory for the next one, which stays), HMC_NONE (none is left, and fewer were tried),
 * HMC_CLOSED, HMC_OVER (the next step may not be taken; it is off the list). No null pointer. */
uint8_t hmc_run(hmc_session *s, uint32_t most, uint32_t stops, uint32_t *steps);
/* The first fault of a text that hmc_lay finds bad: of section schedule; where it isn't UTF-8, its
 * line is 0 and its word "utf8". HMC_OK, HMC_MEMORY, HMC_CLOSED, HMC_NONE (it is a schedule).
 * No null pointer. */
uint8_t hmc_lay_fault(hmc_session *s, const uint8_t *text, size_t length, hmc_fault_t *out);

/* ---- What it shows ---- */

/* Shows the latest entry. HMC_OK, HMC_NONE, HMC_CLOSED. No null pointer. */
uint8_t hmc_entry(hmc_session *s, hmc_entry_t *out);
/* The line of the latest entry; 2,048 bytes hold each. HMC_OK, HMC_NONE, HMC_CLOSED.
 * No null pointer. */
uint8_t hmc_line(hmc_session *s, uint8_t *out, size_t room, size_t *written);

/* The tape of a session that was opened with one: the requests that were asked, as a script, and
 * the steps that were taken, as a schedule. The session's case with these two texts in place of its
 * own, and with the same logic units, has the session's journal, and its report begins with the
 * session's lines, unless there are more than 65,536 requests or 1,000,000 steps; a case of more
 * than 4,194,304 bytes is too long for the program, and not for hmc_run_case. `length` is that of
 * the text also where there is no room for it, and 0 where there is no tape. HMC_OK, HMC_NONE (no
 * room, or no tape), HMC_CLOSED. No null pointer. */
uint8_t hmc_tape_script(hmc_session *s, uint8_t *out, size_t room, size_t *length);
uint8_t hmc_tape_schedule(hmc_session *s, uint8_t *out, size_t room, size_t *length);

/* What the steps so far leave. After a landing that passed each of these is HMC_OVER. */

/* The 16 bytes of a cube at an address, a multiple of 16 below the size of its memory. HMC_OK,
 * HMC_NONE, HMC_CLOSED, HMC_OVER. No null pointer. */
uint8_t hmc_block(hmc_session *s, uint8_t cube, uint64_t address, uint8_t out[16]);
/* A register of a cube, 0 to 15. HMC_OK, HMC_NONE, HMC_CLOSED, HMC_OVER. No null pointer. */
uint8_t hmc_register(hmc_session *s, uint8_t cube, uint8_t number, uint32_t *out);
/* The tokens and the counts of a direction. Link i has the directions 2i, from its end a to its end
 * b, and 2i + 1. HMC_OK, HMC_NONE, HMC_CLOSED, HMC_OVER. No null pointer. */
uint8_t hmc_tokens(hmc_session *s, uint8_t direction, hmc_tokens_t *out);
uint8_t hmc_counters(hmc_session *s, uint8_t direction, hmc_counters_t *out);
/* The counts of a host, and of a cube. HMC_OK, HMC_NONE, HMC_CLOSED, HMC_OVER. No null pointer. */
uint8_t hmc_host(hmc_session *s, uint8_t host, hmc_host_t *out);
uint8_t hmc_cube(hmc_session *s, uint8_t cube, hmc_cube_t *out);
/* Whether nothing is on its way. HMC_OK, HMC_CLOSED, HMC_OVER. No null pointer. */
uint8_t hmc_drained(hmc_session *s, bool *out);
/* How many requests and responses are under way. HMC_OK, HMC_CLOSED, HMC_OVER. No null pointer. */
uint8_t hmc_under_way(hmc_session *s, uint32_t *out);
/* The final line of this number, from 0, that a report of the steps so far has; 2,048 bytes hold
 * each. It takes as long as all final lines up to it. HMC_NONE: there are fewer, or no room for it.
 * HMC_OK, HMC_NONE, HMC_CLOSED, HMC_OVER. No null pointer. */
uint8_t hmc_final_line(hmc_session *s, uint32_t number, uint8_t *out, size_t room,
                       size_t *written);
/* So many rounds without noise drain a network of one cube and one link; of another network the
 * number says nothing. HMC_OK, HMC_CLOSED, HMC_OVER. No null pointer. */
uint8_t hmc_drain_bound(hmc_session *s, uint64_t *out);

/* ---- Without a session ---- */

/* The whole report (docs/report.md) of a case with at most 8 logic units. It is made in memory, and
 * then written. `report_length` is its length also where there is no room for it, and else 0 where
 * nothing is written. HMC_OK, HMC_PASSED (it ends with a landing that passed), HMC_MEMORY, HMC_BAD,
 * HMC_NONE (no room, or a unit is none). No null pointer. */
uint8_t hmc_run_case(const uint8_t *text, size_t length, const hmc_unit_t *units, size_t count,
                     uint8_t *out, size_t room, size_t *report_length);
/* Whether a report is that of a case with at most 8 logic units. HMC_OK: it is, and `number` is
 * how many entries it has. HMC_UNLAWFUL: it isn't, and `number` is the first line, from 1, that
 * shows it. HMC_MEMORY, HMC_BAD (no case), HMC_NONE (a unit is none). No null pointer. */
uint8_t hmc_check(const uint8_t *text, size_t length, const uint8_t *report, size_t report_length,
                  const hmc_unit_t *units, size_t count, uint32_t *number);
/* The flits of a packet as it is sent in profile two, or one, of 16 bytes each: `room` and
 * `written` are numbers of flits. 17 hold each packet. HMC_BAD: the numbers are no packet, or one
 * that doesn't fit the profile. HMC_OK, HMC_BAD, HMC_NONE (no room). No null pointer. */
uint8_t hmc_spell(const hmc_packet_t *packet, bool two, uint8_t *out, size_t room,
                  size_t *written);
/* The packet that so many flits of 16 bytes are in profile two, or one. HMC_OK, HMC_BAD_LENGTH to
 * HMC_BAD_CRC. No null pointer. */
uint8_t hmc_read(const uint8_t *flits, size_t count, bool two, hmc_packet_t *out);
/* The check of a packet: the CRC of its bytes (docs/crc.md). No null pointer. */
uint32_t hmc_crc(const uint8_t *bytes, size_t length);
/* The version of these calls, as the library was compiled: HMC_VERSION of its header. */
uint32_t hmc_version(void);

#ifdef __cplusplus
}
#endif
#endif
