/* A client over poll(2) and libhe: he_next says which address to connect to at which tick, and this file connects,
 * waits, and records what happens. One thread; nothing is kept between two races.
 */
#ifndef _GNU_SOURCE
#define _GNU_SOURCE
#endif
#include "he_race.h"

#include <arpa/inet.h>
#include <errno.h>
#include <fcntl.h>
#include <he.h>
#include <netinet/in.h>
#include <poll.h>
#include <stdio.h>
#include <stdlib.h>
#include <string.h>
#include <sys/socket.h>
#include <time.h>
#include <unistd.h>

enum { MOST_ADDRESSES = 64, MOST_RECORD = 24576, MOST_LINE = 40 * MOST_ADDRESSES + 32 };

struct text {
    uint8_t bytes[MOST_RECORD];
    size_t length;
};

/* The parts of a record, in their order. */
enum part { RECORDS, HEAD, HOST, AAAA, A, CONNECTS, PAUSES, END, PARTS };

struct attempt {
    struct he_step start;
    int socket;  /* -1 once the attempt has failed */
    int error;   /* of a connect that failed at once */
    int is_over; /* its end is recorded */
};

struct race {
    const struct addrinfo *addresses;
    struct timespec begun;
    struct text parts[PARTS], record;
    struct attempt attempts[MOST_ADDRESSES];
    size_t started;
    uint64_t now;   /* the tick of this turn */
    uint64_t after; /* the tick after the last start: the first one for an event */
    int error;      /* for errno, if no attempt connects */
    int fault;      /* for errno, if a line could not be taken, which ends the race */
};

static uint64_t ticks_since(const struct timespec *begun)
{
    struct timespec now;
    clock_gettime(CLOCK_MONOTONIC, &now);
    return (uint64_t)((now.tv_sec - begun->tv_sec) * 1000 + (now.tv_nsec - begun->tv_nsec) / 1000000);
}

static uint64_t event_tick(const struct race *race)
{
    return race->now > race->after ? race->now : race->after;
}

/* Where the next line of a text goes, and how much room it has there. */
static uint8_t *end_of(struct text *text)
{
    return text->bytes + text->length;
}

static size_t room_in(const struct text *text)
{
    return MOST_RECORD - text->length;
}

/* Takes the line that a call wrote to the end of a text. */
static void take(struct race *race, struct text *text, uint32_t answer, const struct he_result *line)
{
    if (answer == HE_DONE)
        text->length += line->length;
    else
        race->fault = answer == HE_FAULT ? EPROTO : ENOMEM;
}

static void append(struct race *race, struct text *text, const char *words)
{
    size_t length = strlen(words);
    if (length > room_in(text)) {
        race->fault = ENOMEM;
        return;
    }
    memcpy(end_of(text), words, length);
    text->length += length;
}

static void append_setting(struct race *race, const char *name, uint64_t value)
{
    struct text *head = &race->parts[HEAD];
    struct he_result line;
    take(race, head,
         he_setting_line((const uint8_t *)name, strlen(name), value, end_of(head), room_in(head), &line), &line);
}

/* A record line; one that libhe refuses is left out. */
static void append_record(struct race *race, const char *words)
{
    struct text *records = &race->parts[RECORDS];
    struct he_result line;
    uint32_t answer = he_record_line((const uint8_t *)words, strlen(words), end_of(records), room_in(records), &line);
    if (answer != HE_FAULT)
        take(race, records, answer, &line);
}

/* The record so far, or up to its line `end`. */
static void join(struct race *race)
{
    struct text *record = &race->record;
    record->length = 0;
    for (int part = 0; part < PARTS; part++) {
        const struct text *one = &race->parts[part];
        if (one->length > room_in(record)) {
            race->fault = ENOMEM;
            return;
        }
        memcpy(end_of(record), one->bytes, one->length);
        record->length += one->length;
    }
}

static const uint8_t *bytes_of(const struct addrinfo *one)
{
    return one->ai_family == AF_INET6 ? (uint8_t *)&((struct sockaddr_in6 *)(void *)one->ai_addr)->sin6_addr
                                      : (uint8_t *)&((struct sockaddr_in *)(void *)one->ai_addr)->sin_addr;
}

/* The first entry of the family with this address. */
static const struct addrinfo *entry_of(const struct race *race, int family, const uint8_t *address)
{
    const struct addrinfo *one = race->addresses;
    while (one && (one->ai_family != family || memcmp(bytes_of(one), address, family == AF_INET6 ? 16 : 4)))
        one = one->ai_next;
    return one;
}

/* Records the addresses of a family, each once, as its answer, and the lines of the host that they need. */
static void answer(struct race *race, uint32_t family)
{
    uint8_t addresses[16 * MOST_ADDRESSES];
    struct text *part = &race->parts[family == 6 ? AAAA : A], *host = &race->parts[HOST];
    int number = family == 6 ? AF_INET6 : AF_INET;
    size_t size = family == 6 ? 16 : 4, length = 0;
    struct he_result line;
    for (const struct addrinfo *one = race->addresses; one; one = one->ai_next)
        if (one->ai_family == number && entry_of(race, number, bytes_of(one)) == one
            && length < size * MOST_ADDRESSES / 2) {
            memcpy(addresses + length, bytes_of(one), size);
            length += size;
        }
    take(race, part, he_answer_line(family, addresses, length, event_tick(race), part->bytes, MOST_LINE, &line), &line);
    join(race);
    uint32_t lines = he_host_lines(family, race->record.bytes, race->record.length, host->bytes, MOST_RECORD, &line);
    host->length = 0;
    take(race, host, lines, &line);
}

/* Begins the attempt of a step. */
static void begin(struct race *race, const struct he_step *step)
{
    struct attempt *attempt = &race->attempts[race->started++];
    int family = step->family == 6 ? AF_INET6 : AF_INET;
    const struct addrinfo *to = entry_of(race, family, step->address);
    race->after = step->tick + 1;
    attempt->start = *step;
    attempt->error = 0;
    attempt->socket = socket(family, SOCK_STREAM | SOCK_NONBLOCK | SOCK_CLOEXEC, 0);
    if (!to || attempt->socket < 0 || (connect(attempt->socket, to->ai_addr, to->ai_addrlen) && errno != EINPROGRESS))
        attempt->error = to ? errno : EADDRNOTAVAIL;
}

static const char *reason_of(int error)
{
    switch (error) {
    case ECONNREFUSED: return "refused";
    case ENETUNREACH: case EHOSTUNREACH: return "unreachable";
    case ETIMEDOUT: return "timed-out";
    case ECONNRESET: return "reset";
    case EACCES: case EPERM: return "forbidden";
    case EADDRNOTAVAIL: return "no-source";
    default: return "other";
    }
}

/* Records why an attempt failed, and gives up its socket. */
static void fail(struct race *race, struct attempt *attempt, int error)
{
    char address[INET6_ADDRSTRLEN], words[128];
    int family = attempt->start.family == 6 ? AF_INET6 : AF_INET;
    inet_ntop(family, attempt->start.address, address, sizeof address);
    snprintf(words, sizeof words, "attempt %s %s", address, reason_of(error));
    append_record(race, words);
    race->error = error;
    if (attempt->socket >= 0)
        close(attempt->socket);
    attempt->socket = -1;
}

/* Records the end of an attempt, once it has ended: a socket's events are not 0 then. */
static void look(struct race *race, struct attempt *attempt, short events)
{
    struct text *connects = &race->parts[CONNECTS];
    int error = attempt->error;
    socklen_t size = sizeof error;
    struct he_result line;
    if (attempt->is_over || (!error && !events))
        return;
    attempt->is_over = 1;
    if (!error)
        getsockopt(attempt->socket, SOL_SOCKET, SO_ERROR, &error, &size);
    take(race, connects,
         he_connect_line(&attempt->start, !error, event_tick(race), end_of(connects), room_in(connects), &line),
         &line);
    if (error)
        fail(race, attempt, error);
}

/* Waits until the tick or until an attempt ends, and begins the next turn. */
static void wait_until(struct race *race, uint64_t tick)
{
    struct pollfd polled[MOST_ADDRESSES];
    uint64_t clock = ticks_since(&race->begun);
    int left = tick > clock ? (int)(tick - clock) : 0;
    for (size_t place = 0; place < race->started; place++) {
        const struct attempt *attempt = &race->attempts[place];
        int has_ended = attempt->is_over || attempt->error;
        polled[place] = (struct pollfd){.fd = has_ended ? -1 : attempt->socket, .events = POLLOUT};
        if (has_ended && !attempt->is_over)
            left = 0;
    }
    poll(polled, race->started, left);
    race->now = ticks_since(&race->begun);
    for (size_t place = 0; place < race->started; place++)
        look(race, &race->attempts[place], polled[place].revents);
}

/* Runs the race, and returns the place of its winner; -1 if it has none. */
static int run(struct race *race)
{
    struct text *pauses = &race->parts[PAUSES];
    struct he_step step;
    struct he_result line;
    for (;;) {
        join(race);
        uint32_t told = he_next(race->record.bytes, race->record.length, race->started, race->now, &step, &line);
        if (told != HE_DONE)
            race->fault = told == HE_NO_MEMORY ? ENOMEM : EPROTO;
        if (race->fault)
            return -1;
        take(race, pauses, he_pause_line(&step, end_of(pauses), room_in(pauses), &line), &line);
        switch (step.action) {
        case HE_ACTION_START: begin(race, &step); break;
        case HE_ACTION_WAIT: wait_until(race, step.tick); break;
        case HE_ACTION_WON: return (int)step.place;
        case HE_ACTION_LIMIT: race->error = ETIMEDOUT; return -1;
        default: return -1;
        }
    }
}

/* The record with its line `end`, and a zero after it. */
static char *copy_record(struct race *race)
{
    append(race, &race->parts[END], "end\n");
    join(race);
    char *copy = malloc(race->record.length + 1);
    if (!copy)
        return NULL;
    memcpy(copy, race->record.bytes, race->record.length);
    copy[race->record.length] = 0;
    return copy;
}

static void open_record(struct race *race, uint64_t limit, const char *to)
{
    char words[300];
    if (to) {
        snprintf(words, sizeof words, "to %s", to);
        append_record(race, words);
    }
    append(race, &race->parts[HEAD], "race 2\n");
    append_setting(race, "limit", limit);
    append_setting(race, "floor", 10);
    answer(race, 6);
    answer(race, 4);
}

int he_race(const struct addrinfo *addresses, uint64_t limit, const char *to, char **record)
{
    struct race *race = calloc(1, sizeof *race);
    int winner = -1, found = -1, error;
    if (record)
        *record = NULL;
    if (!race) {
        errno = ENOMEM;
        return -1;
    }
    race->addresses = addresses;
    clock_gettime(CLOCK_MONOTONIC, &race->begun);
    open_record(race, limit, to);
    race->error = EADDRNOTAVAIL;
    if (!race->fault)
        winner = run(race);
    for (size_t place = 0; place < race->started; place++)
        if ((int)place == winner)
            found = race->attempts[place].socket;
        else if (race->attempts[place].socket >= 0)
            close(race->attempts[place].socket);
    if (record)
        *record = copy_record(race);
    error = race->fault ? race->fault : race->error;
    free(race);
    if (found < 0)
        errno = error;
    return found;
}
