/* Connects to a host by a race of its addresses (RFC 8305) in a loop of libuv, and prints the race's transcript.
 *
 * usage: connect PORT HOST..        the addresses of all the hosts are one race's
 *        RECORD=FILE connect ..     writes the race's record there, a text that `he replay` takes
 *
 * Exit status: 0 if a connection was made, 3 if none was, 1 if something else failed.
 *
 * The loop reads its clock once for several callbacks, so several events have the same millisecond: each callback
 * records its event and takes a turn at the loop's time. An event in the millisecond of the last start is recorded at
 * the next tick.
 */
#include <he.h>
#include <stdio.h>
#include <stdlib.h>
#include <string.h>
#include <uv.h>

enum { MOST_ATTEMPTS = 64, MOST_TEXT = 16384, LIMIT = 10000 };

struct text {
    uint8_t bytes[MOST_TEXT];
    size_t length;
};

enum part { HEAD, HOST, AAAA, A, CONNECTS, PAUSES, PARTS };

struct attempt {
    uv_tcp_t socket;
    uv_connect_t request;
    struct he_step start;
    struct race *race;
};

struct race {
    uv_loop_t *loop;
    uv_timer_t timer;
    struct addrinfo *addresses, **end; /* of all hosts, and where the next one's are put */
    uv_getaddrinfo_t request;
    const char *port;
    char **hosts; /* that are still to be looked up */
    struct text parts[PARTS];
    struct attempt attempts[MOST_ATTEMPTS];
    size_t started;
    uint64_t begun;
    uint64_t after; /* the tick after the last start */
    int is_over;
    int winner; /* -1 if there is none */
};

static void stop(const char *why)
{
    fprintf(stderr, "connect: %s\n", why);
    exit(1);
}

static uint64_t now_of(const struct race *race)
{
    return uv_now(race->loop) - race->begun;
}

static uint64_t event_tick(const struct race *race)
{
    uint64_t now = now_of(race);
    return now > race->after ? now : race->after;
}

static uint8_t *end_of(struct text *text)
{
    return text->bytes + text->length;
}

static size_t room_in(const struct text *text)
{
    return MOST_TEXT - text->length;
}

static void take(struct text *text, uint32_t answer, const struct he_result *line)
{
    if (answer != HE_DONE)
        stop("no line");
    text->length += line->length;
}

static void join(const struct race *race, struct text *whole)
{
    whole->length = 0;
    for (int part = 0; part < PARTS; part++) {
        const struct text *one = &race->parts[part];
        if (one->length > room_in(whole))
            stop("the record is too long");
        memcpy(end_of(whole), one->bytes, one->length);
        whole->length += one->length;
    }
}

static void turn(struct race *race);

static void on_timer(uv_timer_t *timer)
{
    turn(timer->data);
}

/* Records the end of an attempt, and takes a turn at the loop's time. */
static void on_end(uv_connect_t *request, int status)
{
    struct attempt *attempt = request->data;
    struct race *race = attempt->race;
    struct text *connects = &race->parts[CONNECTS];
    struct he_result line;
    if (race->is_over)
        return;
    take(connects,
         he_connect_line(&attempt->start, status == 0, event_tick(race), end_of(connects), room_in(connects), &line),
         &line);
    if (status)
        uv_close((uv_handle_t *)&attempt->socket, NULL);
    turn(race);
}

static const uint8_t *bytes_of(const struct addrinfo *one)
{
    return one->ai_family == AF_INET6 ? (uint8_t *)&((struct sockaddr_in6 *)(void *)one->ai_addr)->sin6_addr
                                      : (uint8_t *)&((struct sockaddr_in *)(void *)one->ai_addr)->sin_addr;
}

static const struct addrinfo *entry_of(const struct race *race, int family, const uint8_t *address)
{
    const struct addrinfo *one = race->addresses;
    while (one && (one->ai_family != family || memcmp(bytes_of(one), address, family == AF_INET6 ? 16 : 4)))
        one = one->ai_next;
    return one;
}

/* Begins the attempt of a step. One that fails at once ends as any other does, from a callback. */
static void begin(struct race *race, const struct he_step *step)
{
    struct attempt *attempt = &race->attempts[race->started++];
    const struct addrinfo *to = entry_of(race, step->family == 6 ? AF_INET6 : AF_INET, step->address);
    race->after = step->tick + 1;
    attempt->start = *step;
    attempt->race = race;
    attempt->request.data = attempt;
    uv_tcp_init(race->loop, &attempt->socket);
    if (!to || uv_tcp_connect(&attempt->request, &attempt->socket, to->ai_addr, on_end))
        stop("no attempt");
}

static void end(struct race *race, const struct he_step *step)
{
    race->is_over = 1;
    race->winner = step->action == HE_ACTION_WON ? (int)step->place : -1;
    uv_close((uv_handle_t *)&race->timer, NULL);
    for (size_t place = 0; place < race->started; place++)
        if (!uv_is_closing((uv_handle_t *)&race->attempts[place].socket))
            uv_close((uv_handle_t *)&race->attempts[place].socket, NULL); /* a client keeps the winner's */
}

/* Does what is due at the loop's time, and waits for what is due next. */
static void turn(struct race *race)
{
    static struct text record;
    struct text *pauses = &race->parts[PAUSES];
    struct he_step step;
    struct he_result line;
    do {
        join(race, &record);
        if (he_next(record.bytes, record.length, race->started, now_of(race), &step, &line) != HE_DONE)
            stop("no step");
        take(pauses, he_pause_line(&step, end_of(pauses), room_in(pauses), &line), &line);
        if (step.action == HE_ACTION_START)
            begin(race, &step);
    } while (step.action == HE_ACTION_START);
    if (step.action == HE_ACTION_WAIT)
        uv_timer_start(&race->timer, on_timer, step.tick - now_of(race), 0);
    else
        end(race, &step);
}

/* Records the addresses of a family, and the lines of this machine for them. */
static void answer(struct race *race, uint32_t family)
{
    static struct text record;
    uint8_t addresses[16 * MOST_ATTEMPTS / 2];
    struct text *part = &race->parts[family == 6 ? AAAA : A], *host = &race->parts[HOST];
    int number = family == 6 ? AF_INET6 : AF_INET;
    size_t size = family == 6 ? 16 : 4, length = 0;
    struct he_result line;
    for (const struct addrinfo *one = race->addresses; one && length < sizeof addresses; one = one->ai_next)
        if (one->ai_family == number && entry_of(race, number, bytes_of(one)) == one) {
            memcpy(addresses + length, bytes_of(one), size);
            length += size;
        }
    take(part, he_answer_line(family, addresses, length, event_tick(race), end_of(part), room_in(part), &line), &line);
    join(race, &record);
    uint32_t lines = he_host_lines(family, record.bytes, record.length, host->bytes, MOST_TEXT, &line);
    host->length = 0;
    take(host, lines, &line);
}

static void on_addresses(uv_getaddrinfo_t *request, int status, struct addrinfo *addresses);

/* Looks up the next host; after the last one both families have answered. */
static void look_up(struct race *race)
{
    struct addrinfo hints = {.ai_family = AF_UNSPEC, .ai_socktype = SOCK_STREAM};
    if (*race->hosts) {
        if (uv_getaddrinfo(race->loop, &race->request, on_addresses, *race->hosts++, race->port, &hints))
            stop("no look-up");
        return;
    }
    answer(race, 6);
    answer(race, 4);
    turn(race);
}

static void on_addresses(uv_getaddrinfo_t *request, int status, struct addrinfo *addresses)
{
    struct race *race = request->data;
    if (!status)
        *race->end = addresses;
    while (*race->end)
        race->end = &(*race->end)->ai_next;
    look_up(race);
}

static void report(const struct race *race)
{
    static struct text record;
    static uint8_t transcript[MOST_TEXT];
    struct he_result result;
    const char *name = getenv("RECORD");
    FILE *file = name ? fopen(name, "w") : NULL;
    join(race, &record);
    memcpy(end_of(&record), "end\n", 4);
    record.length += 4;
    if (he_replay(record.bytes, record.length, transcript, sizeof transcript, &result) != HE_DONE)
        stop("the record does not replay");
    fwrite(transcript, 1, result.length, stdout);
    if (file) {
        fwrite(record.bytes, 1, record.length, file);
        fclose(file);
    }
}

int main(int count, char **words)
{
    static struct race race;
    static const char head[] = "race 2\n";
    struct text *top = &race.parts[HEAD];
    struct he_result line;
    if (count < 3)
        stop("usage: connect PORT HOST..");
    race.loop = uv_default_loop();
    race.begun = uv_now(race.loop);
    race.timer.data = race.request.data = &race;
    race.end = &race.addresses;
    race.port = words[1];
    race.hosts = words + 2;
    memcpy(top->bytes, head, sizeof head - 1);
    top->length = sizeof head - 1;
    take(top, he_setting_line((const uint8_t *)"limit", 5, LIMIT, end_of(top), room_in(top), &line), &line);
    take(top, he_setting_line((const uint8_t *)"floor", 5, 10, end_of(top), room_in(top), &line), &line);
    uv_timer_init(race.loop, &race.timer);
    look_up(&race);
    uv_run(race.loop, UV_RUN_DEFAULT);
    report(&race);
    uv_freeaddrinfo(race.addresses);
    uv_loop_close(race.loop);
    return race.winner >= 0 ? 0 : 3;
}
