/* Connects to a host by a race of its addresses, IPv6 and IPv4 (RFC 8305), and prints the race's transcript.
 *
 * usage: connect PORT HOST..        the addresses of all the hosts are one race's
 *        RECORD=FILE connect ..     writes the race's record there, a text that `he replay` takes
 *
 * Exit status: 0 if a connection was made, 3 if none was, 1 if something else failed.
 */
#include "he_race.h"

#include <he.h>
#include <stdio.h>
#include <stdlib.h>
#include <string.h>
#include <sys/socket.h>
#include <unistd.h>

enum { MOST_TEXT = 65536, LIMIT = 10000 };

/* The addresses of the hosts in one list. */
static struct addrinfo *resolve(const char *port, char **hosts)
{
    struct addrinfo hints = {.ai_family = AF_UNSPEC, .ai_socktype = SOCK_STREAM}, *all = NULL, **end = &all;
    for (; *hosts; hosts++) {
        if (getaddrinfo(*hosts, port, &hints, end))
            continue;
        while (*end)
            end = &(*end)->ai_next;
    }
    return all;
}

/* Prints the transcript of the record, and keeps the record where RECORD says. */
static int report(const char *record)
{
    static uint8_t transcript[MOST_TEXT];
    struct he_result result;
    const char *name = getenv("RECORD");
    FILE *file = name ? fopen(name, "w") : NULL;
    if (file) {
        fputs(record, file);
        fclose(file);
    }
    if (he_replay((const uint8_t *)record, strlen(record), transcript, sizeof transcript, &result) != HE_DONE)
        return 0;
    fwrite(transcript, 1, result.length, stdout);
    return 1;
}

int main(int count, char **words)
{
    char *record, to[300];
    if (count < 3) {
        fputs("usage: connect PORT HOST..\n", stderr);
        return 1;
    }
    struct addrinfo *addresses = resolve(words[1], words + 2);
    snprintf(to, sizeof to, "%s %s", words[2], words[1]);
    int socket = he_race(addresses, LIMIT, to, &record);
    if (socket < 0)
        perror("connect");
    int is_told = record && report(record);
    free(record);
    if (addresses)
        freeaddrinfo(addresses);
    if (socket >= 0)
        close(socket);
    return !is_told ? 1 : socket >= 0 ? 0 : 3;
}
