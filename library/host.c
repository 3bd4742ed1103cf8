/* he_host_lines: the source and route lines for the addresses of an answer, by what Linux says.
 *
 * The part of the library that no proof covers. A datagram socket that is connected to an address has the source that
 * Linux selects for it (RFC 6724 section 5). getifaddrs gives the source's prefix length, and whether its interface is
 * a tunnel; /proc/net/if_inet6, whether an IPv6 address is deprecated. The proved functions he_source_line and
 * he_route_line write the lines. Nothing is allocated here; getifaddrs and stdio use malloc.
 */
#ifndef _GNU_SOURCE
#define _GNU_SOURCE
#endif
#include <he.h>

#include <string.h>

/* A text that is being written: its bytes up to `size`, and the length of all of it. */
struct out {
    uint8_t *bytes;
    size_t size;
    size_t length;
};

struct text {
    const char *bytes;
    size_t length;
};

static void append(struct out *out, const void *bytes, size_t length)
{
    if (out->length + length <= out->size)
        memcpy(out->bytes + out->length, bytes, length);
    out->length += length;
}

/* Takes the next line off the text, without its line feed; 0 if there is none. */
static int take_line(struct text *text, struct text *line)
{
    if (!text->length)
        return 0;
    const char *end = memchr(text->bytes, '\n', text->length);
    line->bytes = text->bytes;
    line->length = end ? (size_t)(end - text->bytes) : text->length;
    size_t taken = line->length + (end != NULL);
    text->bytes += taken;
    text->length -= taken;
    return 1;
}

static int begins(const struct text *line, const char *word)
{
    size_t length = strlen(word);
    return line->length >= length && !memcmp(line->bytes, word, length);
}

/* Copies the record's lines that begin with the word. */
static void copy_lines(struct text record, const char *word, struct out *out)
{
    struct text line;
    while (take_line(&record, &line))
        if (begins(&line, word)) {
            append(out, line.bytes, line.length);
            append(out, "\n", 1);
        }
}

#ifdef __linux__

#include <arpa/inet.h>
#include <ifaddrs.h>
#include <net/if.h>
#include <net/if_arp.h>
#include <netinet/in.h>
#include <netpacket/packet.h>
#include <stdio.h>
#include <sys/socket.h>
#include <unistd.h>

enum { MOST_DESTINATIONS = 32, ANY_PORT = 9, DEPRECATED = 0x20 };

/* The ways to the destinations of an answer, and which of them have a source that no line before has. */
struct ways {
    struct he_way ways[MOST_DESTINATIONS];
    int is_new[MOST_DESTINATIONS];
    size_t count;
};

static size_t size_of(uint32_t family)
{
    return family == 4 ? 4 : 16;
}

static int number_of(uint32_t family)
{
    return family == 4 ? AF_INET : AF_INET6;
}

/* Takes the next word off the line; 0 if there is none, or if it is longer than an address with a prefix length. */
static int take_word(struct text *line, char word[64])
{
    const char *space = memchr(line->bytes, ' ', line->length);
    size_t length = space ? (size_t)(space - line->bytes) : line->length;
    if (!length || length >= 64)
        return 0;
    memcpy(word, line->bytes, length);
    word[length] = 0;
    line->bytes += length + (space != NULL);
    line->length -= length + (space != NULL);
    return 1;
}

/* Reads a line `source` or `route`: the address before the `/`, and the interface. */
static int read_line(struct text line, uint32_t family, uint8_t address[16], unsigned *interface)
{
    char word[64], number[64];
    if (!take_word(&line, word) || !take_word(&line, word) || !take_word(&line, number))
        return 0;
    char *slash = strchr(word, '/');
    *interface = 0;
    for (const char *digit = number; *digit >= '0' && *digit <= '9'; digit++)
        *interface = *interface * 10 + (unsigned)(*digit - '0');
    if (!slash)
        return 0;
    int is_alone = !strcmp(slash, family == 4 ? "/32" : "/128");
    *slash = 0;
    return inet_pton(number_of(family), word, address) == 1 ? 1 + is_alone : 0;
}

/* The interface of the record's line that has this word and this address, 0 if there is none. A route must be one to
 * the address alone. */
static unsigned interface_in(struct text record, const char *begin, uint32_t family, const uint8_t *address)
{
    struct text line;
    uint8_t found[16];
    unsigned interface;
    int least = begin[0] == 'r' ? 2 : 1;
    while (take_line(&record, &line))
        if (begins(&line, begin) && read_line(line, family, found, &interface) >= least
            && !memcmp(found, address, size_of(family)))
            return interface;
    return 0;
}

/* Whether a source line of the record, or a way, has this interface. */
static int is_taken(struct text record, const struct ways *ways, unsigned interface)
{
    struct text line;
    uint8_t found[16];
    unsigned other;
    for (size_t place = 0; place < ways->count; place++)
        if (ways->ways[place].interface == interface)
            return 1;
    while (take_line(&record, &line))
        if (begins(&line, "source ") || begins(&line, "route ")) {
            read_line(line, 6, found, &other);
            if (other == interface)
                return 1;
        }
    return 0;
}

/* The source that Linux selects for the destination of the way; 0 if it has no route to it. */
static int ask_source(struct he_way *way)
{
    struct sockaddr_in6 six = {.sin6_family = AF_INET6, .sin6_port = htons(ANY_PORT)};
    struct sockaddr_in four = {.sin_family = AF_INET, .sin_port = htons(ANY_PORT)};
    int is_four = way->family == 4;
    struct sockaddr *address = is_four ? (struct sockaddr *)&four : (struct sockaddr *)&six;
    void *bytes = is_four ? (void *)&four.sin_addr : (void *)&six.sin6_addr;
    socklen_t length = is_four ? sizeof four : sizeof six;
    int datagrams = socket(number_of(way->family), SOCK_DGRAM | SOCK_CLOEXEC, 0);
    if (datagrams < 0)
        return 0;
    memcpy(bytes, way->destination, size_of(way->family));
    int is_found = !connect(datagrams, address, length) && !getsockname(datagrams, address, &length);
    memcpy(way->source, bytes, size_of(way->family));
    close(datagrams);
    return is_found;
}

static uint8_t ones_of(const uint8_t *mask, size_t size)
{
    unsigned ones = 0;
    while (ones < 8 * size && mask[ones / 8] >> (7 - ones % 8) & 1)
        ones++;
    return (uint8_t)ones;
}

static const uint8_t *bytes_of(const struct sockaddr *address, uint32_t family)
{
    return family == 4 ? (const uint8_t *)&((const struct sockaddr_in *)address)->sin_addr
                       : (const uint8_t *)&((const struct sockaddr_in6 *)address)->sin6_addr;
}

/* Whether the interface of this name is a tunnel, by the type of its hardware: tun and WireGuard, ipip, ip6tnl, sit,
 * gre, ip6gre. */
static int is_tunnel(const struct ifaddrs *all, const char *name)
{
    static const unsigned short tunnels[] = {65534, ARPHRD_TUNNEL, ARPHRD_TUNNEL6, ARPHRD_SIT, ARPHRD_IPGRE, 823};
    for (; all; all = all->ifa_next)
        if (all->ifa_addr && all->ifa_addr->sa_family == AF_PACKET && !strcmp(all->ifa_name, name))
            for (size_t place = 0; place < sizeof tunnels / sizeof *tunnels; place++)
                if (((const struct sockaddr_ll *)all->ifa_addr)->sll_hatype == tunnels[place])
                    return 1;
    return 0;
}

/* The prefix length of the way's source, and for an IPv6 source whether its interface is a tunnel. */
static void ask_interface(struct he_way *way, const struct ifaddrs *all)
{
    size_t size = size_of(way->family);
    way->prefix_length = (uint8_t)(8 * size);
    for (const struct ifaddrs *one = all; one; one = one->ifa_next)
        if (one->ifa_addr && one->ifa_netmask && one->ifa_addr->sa_family == number_of(way->family)
            && !memcmp(bytes_of(one->ifa_addr, way->family), way->source, size)) {
            way->prefix_length = ones_of(bytes_of(one->ifa_netmask, way->family), size);
            way->tunnel = way->family == 6 && is_tunnel(all, one->ifa_name);
            return;
        }
}

/* Whether an IPv6 source is deprecated. */
static int is_deprecated(const struct he_way *way)
{
    FILE *file = way->family == 6 ? fopen("/proc/net/if_inet6", "re") : NULL;
    char hex[33], wanted[33];
    unsigned flags, found = 0;
    if (!file)
        return 0;
    for (int place = 0; place < 16; place++)
        snprintf(wanted + 2 * place, 3, "%02x", way->source[place]);
    while (fscanf(file, "%32s %*x %*x %*x %x %*s", hex, &flags) == 2)
        if (!strcmp(hex, wanted))
            found = flags;
    fclose(file);
    return (found & DEPRECATED) != 0;
}

/* The interface number of a way's source: that of a line or a way with this source, or one of its own. */
static void number_way(struct text record, struct ways *ways, struct he_way *way, int *is_new)
{
    unsigned interface = interface_in(record, "source ", way->family, way->source);
    for (size_t place = 0; place < ways->count && !interface; place++)
        if (!memcmp(ways->ways[place].source, way->source, size_of(way->family)))
            interface = ways->ways[place].interface;
    *is_new = !interface;
    if (!interface)
        for (interface = way->family == 6 ? 1 : 2; is_taken(record, ways, interface);)
            interface += 2;
    way->interface = (uint16_t)interface;
}

/* Adds the way to this address, unless there is none or the record has a route to it. */
static void add_way(struct text record, const char *word, uint32_t family, struct ways *ways, const struct ifaddrs *all)
{
    struct he_way way = {.family = family};
    if (inet_pton(number_of(family), word, way.destination) != 1
        || (family == 6 && IN6_IS_ADDR_LINKLOCAL((struct in6_addr *)way.destination))
        || interface_in(record, "route ", family, way.destination) || !ask_source(&way))
        return;
    ask_interface(&way, all);
    way.deprecated = (uint8_t)is_deprecated(&way);
    number_way(record, ways, &way, &ways->is_new[ways->count]);
    ways->ways[ways->count++] = way;
}

/* The ways to the addresses of the family's answer in the record. */
static void find_ways(struct text record, uint32_t family, struct ways *ways)
{
    struct ifaddrs *all = NULL;
    struct text rest = record, line;
    char word[64];
    ways->count = 0;
    if (getifaddrs(&all))
        all = NULL;
    while (take_line(&rest, &line)) {
        if (!begins(&line, family == 4 ? "a " : "aaaa ") || !take_word(&line, word) || !take_word(&line, word))
            continue;
        for (int place = 0; place < MOST_DESTINATIONS && take_word(&line, word); place++)
            add_way(record, word, family, ways, all);
    }
    if (all)
        freeifaddrs(all);
}

typedef uint32_t line_of(const struct he_way *, uint8_t *, size_t, struct he_result *);

static uint32_t append_way(line_of *write, const struct he_way *way, struct out *out)
{
    uint8_t line[HE_LINE_SIZE];
    struct he_result result;
    uint32_t answer = write(way, line, sizeof line, &result);
    if (answer == HE_DONE)
        append(out, line, result.length);
    return answer;
}

/* All lines of the host: the record's and those of the ways, sources first. */
static uint32_t write_lines(struct text record, const struct ways *ways, struct out *out)
{
    uint32_t answer = HE_DONE;
    copy_lines(record, "source ", out);
    for (size_t place = 0; place < ways->count && answer == HE_DONE; place++)
        if (ways->is_new[place])
            answer = append_way(he_source_line, &ways->ways[place], out);
    copy_lines(record, "route ", out);
    for (size_t place = 0; place < ways->count && answer == HE_DONE; place++)
        answer = append_way(he_route_line, &ways->ways[place], out);
    return answer;
}

#else

struct ways {
    int none;
};

static void find_ways(struct text record, uint32_t family, struct ways *ways)
{
    (void)record, (void)family, (void)ways;
}

static uint32_t write_lines(struct text record, const struct ways *ways, struct out *out)
{
    (void)ways;
    copy_lines(record, "source ", out);
    copy_lines(record, "route ", out);
    return HE_DONE;
}

#endif

uint32_t he_host_lines(uint32_t family, const uint8_t *record, size_t record_length, uint8_t *buffer,
                       size_t buffer_size, struct he_result *result)
{
    struct text text = {(const char *)record, record_length};
    struct ways ways;
    struct out counted = {buffer, 0, 0}, out = {buffer, buffer_size, 0};
    memset(result, 0, sizeof *result);
    find_ways(text, family, &ways);
    uint32_t answer = write_lines(text, &ways, &counted);
    if (answer == HE_DONE && counted.length > buffer_size)
        answer = HE_BUFFER_TOO_SMALL;
    else if (answer == HE_DONE)
        answer = write_lines(text, &ways, &out);
    result->length = answer == HE_NO_MEMORY ? 0 : counted.length;
    return answer;
}
