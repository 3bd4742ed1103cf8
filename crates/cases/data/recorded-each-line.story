www.example.com:443 for 198.51.100.9, 2026-11-28 10:54:05Z: the client connected after 20001 ms; by RFC 8305: connected by IPv4 (198.51.100.82) in 362 ms; 20 ms lost on 198.51.100.80 (failed)
where the time went: names 62 ms, lost 20 ms, connecting 30 ms, unknown 250 ms
preferred, once every answer is known:
  1. 198.51.100.80 from 192.0.2.2
  2. 198.51.100.81 from 192.0.2.2; listed later in its answer (RFC 6724 rule 10)
  3. 198.51.100.82 from 192.0.2.2; listed later in its answer (RFC 6724 rule 10)
course by RFC 8305:
   12 ms  A answer: 3 addresses to try; still waiting for the AAAA answer
   12 ms  wait for the AAAA answer until 62 ms (Resolution Delay)
   62 ms  the wait is over, without the AAAA answer
   62 ms  attempt 1 to 198.51.100.80: the wait for the AAAA answer is over; number 1 of 3 known addresses, IPv4 first
   66 ms  attempt 1 failed after 4 ms: refused
   82 ms  attempt 2 to 198.51.100.81: all earlier attempts failed; 20 ms after attempt 1 (set floor); number 2 of 3 known addresses, only IPv4 is left
  300 ms  AAAA: no answer
  332 ms  attempt 3 to 198.51.100.82: 250 ms after the start of attempt 2; number 3 of 3 known addresses, only IPv4 is left
  362 ms  attempt 3 connected after 30 ms
  362 ms  attempt 2: no client tried it, unknown after 280 ms
an IPv4 address was known 50 ms before one was tried
name server 192.0.2.77: no answer in 251 ms
no client tried 198.51.100.81: its outcome is unknown

[2001:db8::80]:8443: the client gave up after 1500 ms; by RFC 8305: not connected: timed out after 2000 ms; its 1 address did not answer; 250 ms lost on 2001:db8::80 (no answer); 1750 of 2000 ms waiting for DNS
where the time went: names 1750 ms, lost 250 ms, connecting 0 ms
preferred, once every answer is known:
  1. 2001:db8::80 from 2001:db8::2
course by RFC 8305:
     0 ms  AAAA answer: 1 address to try; still waiting for the A answer
     0 ms  attempt 1 to 2001:db8::80: AAAA answer received; no other address known
  2000 ms  the limit: the race is given up
  2000 ms  attempt 1: no answer in 2000 ms
no A answer came

2024-02-29 23:59:59Z: the client failed after 3 ms; by RFC 8305: not connected: its 1 address unreachable (3 ms); 3 ms lost on 2001:db8::80 (failed)
check: the route to 2001:db8::80
where the time went: names 0 ms, lost 3 ms, connecting 0 ms
preferred, once every answer is known:
  1. 2001:db8::80 from 2001:db8::2
course by RFC 8305:
  0 ms  AAAA answer: 1 address to try
  0 ms  A answer: 0 addresses to try
  0 ms  attempt 1 to 2001:db8::80: AAAA answer received; no other address known
  3 ms  attempt 1 failed after 3 ms: unreachable
  3 ms  no address left to try

for 2001:db8::9: not connected: timed out after 400 ms and 1 attempt; 150 ms lost with no address left to try
where the time went: names 0 ms, lost 150 ms, connecting 0 ms, unknown 250 ms
preferred, once every answer is known:
  1. 2001:db8::80 from 2001:db8::2
course:
    0 ms  AAAA answer: 1 address to try
    0 ms  A answer: 0 addresses to try
    0 ms  attempt 1 to 2001:db8::80: AAAA answer received; no other address known
  400 ms  the limit: the race is given up
  400 ms  attempt 1: no client tried it, unknown after 400 ms
no client tried 2001:db8::80: its outcome is unknown
