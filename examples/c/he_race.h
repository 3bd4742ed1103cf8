/* he_race.h: connects to one of several addresses by a race (RFC 8305), over poll(2). Copy he_race.h and he_race.c into
 * your program, and link libhe. */
#ifndef HE_RACE_H
#define HE_RACE_H

#include <netdb.h>
#include <stdint.h>

#ifdef __cplusplus
extern "C" {
#endif

/* Runs a race of these addresses, which getaddrinfo returned, of one port or several: each address counts once, and of
 * each family the first 32 take part. It ends after `limit` milliseconds at the latest (1 to 3600000).
 *
 * Returns the connected socket, which does not block; -1 with errno if none connected: that of the last attempt that
 * failed, ETIMEDOUT at the limit, EADDRNOTAVAIL without an address, ENOMEM, or EPROTO if libhe refuses the record.
 *
 * `to` is `HOST PORT` for the record, or a null pointer. If `record` is not a null pointer, *record is the race's
 * record, a text that he_replay takes, or a null pointer if memory ran out; free it. May be called from several
 * threads at once. */
int he_race(const struct addrinfo *addresses, uint64_t limit, const char *to, char **record);

#ifdef __cplusplus
}
#endif
#endif
