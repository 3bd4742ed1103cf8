/* he.h: the rules of Happy Eyeballs races (RFC 8305, with the address selection of RFC 6724) for programs in C.
 *
 * The library has no threads and no clocks, and is stateless: input buffer in, output buffer out. It takes memory from
 * malloc, and frees it before a call returns. Calls may be made from several threads at once, but not from a
 * signal handler, and not in a forked child of a process with threads. Only he_host_lines uses the system. Texts are
 * bytes with a length, and need no zero after them. Ticks are milliseconds from the start of a race.
 *
 * PROVED properties are listed at each function, by definitions beside the library's source. They hold if the caller
 * keeps to this: each pointer points to as much memory as its length says; the buffer that is written to, the structs
 * and the text that is read do not overlap; and nothing else writes to them during the call. A text or a buffer of
 * length 0 may be a null pointer: that is tested, not proved.
 *
 * TEXTS OF RACES. A text holds races, one after another. A race is a line `race 1` or `race 2`, then lines of the
 * kinds below, in this order, then a line `end`; each line ends with one line feed. Right before its first line a race
 * may have lines that begin with `record`: when, for whom and why the race was recorded. They don't change the race.
 *
 *     set resolution 50               how long an IPv4 answer waits for the IPv6 one, 0 to 1000
 *     set attempt 250                 from one start to the next, 10 to 2000
 *     set count 1                     how many addresses of the first family lead, 1 to 8
 *     set limit 30000                 when the race is given up, 1 to 3600000
 *     set floor 10                    (race 2) from the last start to the next, once all have failed
 *     policy ::/0 40 1                a row of the policy table; without rows the table of RFC 6724 applies
 *     source 2001:db8::2/64 1         an address of the machine, its prefix length, its interface
 *     route ::/0 1                    a route of the machine, and its interface
 *     aaaa 20 2001:db8:1::1           the tick at which the IPv6 answer came, and its addresses, or `none`
 *     a 25 198.51.100.1               the IPv4 answer
 *     rtt 2001:db8:1::1 35            (race 2) the round trip time of an address, known from before
 *     used 2001:db8:1::1              (race 2) an address that was used before
 *     connect 2001:db8:1::1 ok 35     connected this many ticks after the start; `fail 35`: it failed then
 *     pause 100 200                   the client slept from tick 100 to tick 199
 *
 * A RACE NEEDS source and route lines: an address that no source reaches is tried last, and without any such lines
 * only the policy table orders the addresses.
 */
#ifndef HE_H
#define HE_H

#include <stddef.h>
#include <stdint.h>

#ifdef __cplusplus
extern "C" {
#endif

/* The version of this header: 10000 times the major version, plus 100 times the minor one, plus the patch. he_version
 * returns that of the library that is loaded. */
#define HE_VERSION 10000
uint32_t he_version(void);

/* The answer of a call. */
enum he_answer {
    HE_DONE = 0,
    /* The text has a fault, which is reported. What comes before it was still written. */
    HE_FAULT = 1,
    /* The buffer is too small. `length` is the number of bytes needed; the buffer is unchanged. */
    HE_BUFFER_TOO_SMALL = 2,
    /* malloc failed. Nothing was written, and all members of the structs are 0. */
    HE_NO_MEMORY = 3,
    /* Only he_next: the record has more than one race. */
    HE_NOT_ONE_RACE = 4
};

/* The kind of a fault: the first check that fails on the first faulty line of a text. */
enum he_kind {
    HE_KIND_NONE = 0,              /* no fault */
    HE_KIND_HEADER = 1,            /* the race does not begin with `race 1` or `race 2` */
    HE_KIND_WORD = 2,              /* a word that is unknown or out of place; a wrong number of words */
    HE_KIND_NUMBER = 3,            /* not one to ten digits without leading zeros */
    HE_KIND_ADDRESS = 4,           /* not an address, of the wrong family, in no answer, or a source not usable */
    HE_KIND_PREFIX = 5,            /* not a prefix, or not a source */
    HE_KIND_REPEATED = 6,          /* given twice */
    HE_KIND_RANGE = 7,             /* a number out of range; pauses that overlap; a floor above the attempt delay */
    HE_KIND_TOO_MANY = 8,          /* a line too long; more lines, addresses or races than there may be */
    HE_KIND_UNFINISHED = 9,        /* the text ends inside a race */
    HE_KIND_NO_DEFAULT_ROW = 10,   /* the policy table has no ::/0 */
    HE_KIND_NO_MAPPED_ROW = 11,    /* the policy table has no ::ffff:0:0/96 */
    HE_KIND_SHARED_PRECEDENCE = 12 /* a row inside ::ffff:0:0/96 has the precedence of one outside */
};

/* The details of a call, besides its answer. */
struct he_result {
    uint64_t length; /* the number of bytes of the whole text to be written */
    uint64_t line;   /* the line of the fault, counted from 1; 0 if there is none */
    uint32_t kind;   /* an he_kind */
};

/* The transcripts, the orders or the explanations of a text, or its number of races and lines. Each call writes the
 * text to `buffer`, and the details to `result`.
 *
 * Proved: unless the answer is HE_NO_MEMORY, the text to be written is, in full, the defined one: for each race up to
 * the text's first fault its transcript, its order, or an object that explains it (as `he explain --json` writes it,
 * in JSON, with `file` null), one after another; `line` and `kind` are those of that first fault. If and only if this
 * text fits, it is at the front of the buffer, and the rest of the buffer is unchanged; otherwise the answer is
 * HE_BUFFER_TOO_SMALL, and the buffer is unchanged. The answer is HE_FAULT if and only if there is a fault and the
 * buffer is large enough. he_check writes `N races, M lines` if there is no fault.
 *
 * Tested only: the text of he_check if there is a fault: its line and kind, the line itself with a mark below the
 * part that is wrong, and the form expected. The warnings of `he check` are not reported.
 */
uint32_t he_replay(const uint8_t *text, size_t text_length, uint8_t *buffer, size_t buffer_size,
                   struct he_result *result);
uint32_t he_order(const uint8_t *text, size_t text_length, uint8_t *buffer, size_t buffer_size,
                  struct he_result *result);
uint32_t he_explain(const uint8_t *text, size_t text_length, uint8_t *buffer, size_t buffer_size,
                    struct he_result *result);
uint32_t he_check(const uint8_t *text, size_t text_length, uint8_t *buffer, size_t buffer_size,
                  struct he_result *result);

/* Writes the words of a kind of fault, as `too many`; nothing if no fault has this number. */
uint32_t he_kind_text(uint32_t kind, uint8_t *buffer, size_t buffer_size, struct he_result *result);

/* The next action in a running race. */
enum he_action {
    HE_ACTION_START = 1,     /* connect to `address` now: the attempt at this `place` starts at `tick` */
    HE_ACTION_WAIT = 2,      /* nothing is due before `tick`, unless something happens */
    HE_ACTION_WON = 3,       /* the attempt at this `place` won the race, at `tick` */
    HE_ACTION_EXHAUSTED = 4, /* every attempt failed, by `tick` */
    HE_ACTION_LIMIT = 5      /* the race ended at its limit, `tick` */
};

struct he_step {
    uint32_t action;      /* an he_action; 0 unless the answer is HE_DONE */
    uint32_t family;      /* 4 or 6 for a start, else 0 */
    uint64_t place;       /* of a start or of the winner, else 0 */
    uint64_t tick;
    uint64_t pause_from;  /* if pause_until is not 0: write the line of the pause into the record (he_pause_line) */
    uint64_t pause_until;
    uint8_t address[16];  /* for a start, first byte first: 4 bytes of an IPv4 address, 16 of an IPv6 one; else 0 */
};

/* Returns the action that is due at tick `now` in the race of `record`, in which `started` attempts have started.
 *
 * THE RECORD is the text of the race so far, without its line `end`. Its lines are in the order above, so keep the
 * record lines, the host's lines, each answer, the `connect` lines and the `pause` lines apart, and join them for each
 * call.
 *
 * A TURN. Read the clock, as `now`. Write the events since the last turn into the record, with the functions below,
 * at the tick `now`; but if an attempt started at `now` or later, at the tick after the last start. Call he_next.
 * Write the pause, if one is reported: the client came late to a start. On HE_ACTION_START, connect, count the attempt
 * in `started`, and call again, having written nothing but that pause. On HE_ACTION_WAIT, sleep until that tick or
 * until something happens; then a new turn begins. Otherwise the race is over: close all other sockets, and end the
 * record with a line `end`, which makes it a text that he_replay takes.
 *
 * `now` may be the last turn's, never less: several events of one millisecond are one turn, or a turn each. A clock
 * that an event loop reads once for several callbacks serves as it is. What is recorded at the tick after the last
 * start is due at that tick: until then he_next answers HE_ACTION_WAIT.
 *
 * Proved: the step is that of a replay of the record followed by `end`, with the reported pause as its last line. The
 * attempt at place `started` of that transcript starts at `tick`, or is waited for if it starts later; if there is
 * none, the race's end is waited for; and the race is over if the transcript ends at or before `now`. A pause is
 * reported if and only if that attempt starts before `now`, and lasts from there to `now`. A tick past the race's
 * limit counts as the first one after it. For races that are run by such steps, at ticks that are not before the last
 * start, whatever answers, ends and pauses are written meanwhile, each after the last start: the attempts that were
 * started are those of the transcript of the ended record. Along with an answer may come lines `rtt` and `used` of its
 * addresses, in their order, and lines `source` and `route` of its family, after those already there.
 *
 * Returns HE_DONE; HE_FAULT, if the ended record has a fault, or cannot have the pause that it needs;
 * HE_NOT_ONE_RACE; or HE_NO_MEMORY. `result` has a fault's line and kind, and a length of 0.
 *
 * Each call reads the whole record, so its cost grows with the record: about 10 microseconds for 10 addresses, and
 * less than 2 milliseconds for the largest possible record. */
uint32_t he_next(const uint8_t *record, size_t record_length, uint64_t started, uint64_t now, struct he_step *step,
                 struct he_result *result);

/* LINES OF A RECORD. Each call writes one line with its line feed to `buffer`, all of it or nothing, and its length to
 * `result`. The lines of the settings above, of ends, pauses, sources and routes have at most HE_LINE_SIZE bytes; that
 * of an answer at most 32, and 40 more for each address.
 *
 * Proved: the line is the one that `he` writes for the same values, with addresses as in RFC 5952. The functions don't
 * know the race: he_next reports a name that is no setting's, a number out of its range, or an address that
 * is in no answer. */
#define HE_LINE_SIZE 128

/* The setting of this name: `set NAME N`. */
uint32_t he_setting_line(const uint8_t *name, size_t name_length, uint64_t value, uint8_t *buffer, size_t buffer_size,
                         struct he_result *result);

/* The answer of a family, 4 or 6, that came at this tick: `aaaa` or `a`. The addresses are 4 or 16 bytes each, one
 * after another, up to 256; none is an answer without addresses. HE_FAULT with the kind HE_KIND_ADDRESS if there is no
 * such family, or the last address is cut off. */
uint32_t he_answer_line(uint32_t family, const uint8_t *addresses, size_t addresses_length, uint64_t tick,
                        uint8_t *buffer, size_t buffer_size, struct he_result *result);

/* The end of the attempt that `start`, a step with HE_ACTION_START, began: it connected at this tick, or failed if
 * `connected` is 0. An end in the tick of the start counts as one in the next tick. */
uint32_t he_connect_line(const struct he_step *start, uint32_t connected, uint64_t tick, uint8_t *buffer,
                         size_t buffer_size, struct he_result *result);

/* The pause that a step reports; nothing if it reports none. */
uint32_t he_pause_line(const struct he_step *step, uint8_t *buffer, size_t buffer_size, struct he_result *result);

/* How the machine reaches a destination. */
struct he_way {
    uint32_t family;         /* 4 or 6 */
    uint16_t interface;      /* 1 to 65535 */
    uint8_t prefix_length;   /* of the source, in bits */
    uint8_t deprecated;      /* not 0 if the source should be avoided (RFC 4862 section 5.5.4) */
    uint8_t destination[16]; /* the address to connect to, first byte first: 4 bytes of an IPv4 one, else 16 */
    uint8_t source[16];      /* the machine's own address for it */
    uint8_t tunnel;          /* not 0 if the interface is a tunnel */
};

/* The line `source` of the way's source, and the line `route` to its destination alone. */
uint32_t he_source_line(const struct he_way *way, uint8_t *buffer, size_t buffer_size, struct he_result *result);
uint32_t he_route_line(const struct he_way *way, uint8_t *buffer, size_t buffer_size, struct he_result *result);

/* The record line with these words after `record`, as `to example.org 443`, `from 192.0.2.9`, `at
 * 2026-11-28T10:54:05.261Z` or `attempt 192.0.2.1 refused`. HE_FAULT if and only if they are those of no such line,
 * with the kind of the fault (this kind is tested only); the buffer is unchanged. Record lines come before the line
 * `race 2`, and he_next and all other functions pass over them. */
uint32_t he_record_line(const uint8_t *words, size_t words_length, uint8_t *buffer, size_t buffer_size,
                        struct he_result *result);

/* The host's lines for the answer of this family in `record`: all source and route lines that the record already has,
 * and those for the addresses of that answer, up to 32. They take the place of the record's source and route lines.
 * Call it once for each answer, before the turn in which the answer is written.
 *
 * Linux is asked for the source of each address: a datagram socket is connected, which sends nothing. Each source has
 * an interface number of its own, odd for IPv6 and even for IPv4, so the rules select the source that Linux does. An
 * address that Linux has no route to gets no line, nor does a link-local one. Elsewhere than on Linux there are no
 * new lines.
 *
 * Not proved, since it asks the system; tested beside `he host --for`. Returns HE_DONE, HE_BUFFER_TOO_SMALL or
 * HE_NO_MEMORY. */
uint32_t he_host_lines(uint32_t family, const uint8_t *record, size_t record_length, uint8_t *buffer,
                       size_t buffer_size, struct he_result *result);

/* Takes memory from these functions in place of malloc, realloc and free, for all later calls of the process. They
 * must be one allocator, aligned as malloc's memory is. Call it before any other function, while the process has one
 * thread. */
void he_use_memory(void *(*allocate)(size_t size), void *(*reallocate)(void *memory, size_t size),
                   void (*release)(void *memory));

#ifdef __cplusplus
}
#endif
#endif
