race 1 (line 1): connected by IPv4 (198.51.100.2) in 582 ms; 500 ms lost: 250 on 198.51.100.1 (failed), 250 on 2001:db8:1::1 (no answer)
where the time went: names 62 ms, lost 500 ms, connecting 16 ms, this machine 4 ms
preferred, once every answer is known:
  1. 2001:db8:1::1 from 2001:db8::2
  2. 198.51.100.1 from 192.0.2.2; lower precedence: 35, the one before 40 (RFC 6724 rule 6)
  3. 198.51.100.2 from 192.0.2.2; listed later in its answer (RFC 6724 rule 10)
course:
   11 ms  A answer (2 ms late): 2 addresses to try; still waiting for the AAAA answer
   11 ms  wait for the AAAA answer until 60 ms (Resolution Delay)
   62 ms  the wait is over, without the AAAA answer (4 ms late)
   62 ms  attempt 1 to 198.51.100.1: the wait for the AAAA answer is over (4 ms late); number 1 of 2 known addresses, IPv4 first
   80 ms  AAAA answer: 1 address to try
   83 ms  attempt 1 failed after 21 ms (1 ms late)
  311 ms  this machine was busy until 316 ms: it saw and started nothing
  316 ms  attempt 2 to 2001:db8:1::1: 250 ms after the start of attempt 1, late because this machine was busy; number 1 of 3 known addresses, IPv6 first
  566 ms  attempt 3 to 198.51.100.2: 250 ms after the start of attempt 2; number 3 of 3 known addresses, only IPv4 is left
  582 ms  attempt 3 connected after 16 ms (2 ms late)
  582 ms  attempt 2: no answer in 266 ms
an IPv6 address was known 236 ms before one was tried
an IPv4 address was known 51 ms before one was tried
if the next attempt followed a failure at once (--set floor=10): connected by IPv4 (198.51.100.2) in 348 ms

race 2 (line 17): connected by IPv4 (198.51.100.1) in 55 ms; 50 ms lost: 10 on 2001:db8:1::1 (no answer), 10 on 2001:db8:1::2 (failed), 10 on 2001:db8:1::3 (no answer) and on 2 more
where the time went: names 0 ms, lost 50 ms, connecting 5 ms
preferred, once every answer is known:
  1. 2001:db8:1::1 from 2001:db8::2
  2. 2001:db8:1::2 from 2001:db8::2; listed later in its answer (RFC 6724 rule 10)
  3. 2001:db8:1::3 from 2001:db8::2; listed later in its answer (RFC 6724 rule 10)
  4. 2001:db8:1::4 from 2001:db8::2; listed later in its answer (RFC 6724 rule 10)
  5. 2001:db8:1::5 from 2001:db8::2; listed later in its answer (RFC 6724 rule 10)
  6. 198.51.100.1 from 192.0.2.2; lower precedence: 35, the one before 40 (RFC 6724 rule 6)
course:
   0 ms  AAAA answer: 5 addresses to try
   0 ms  A answer: 1 address to try
   0 ms  attempt 1 to 2001:db8:1::1: AAAA answer received; number 1 of 6 known addresses, IPv6 first
  10 ms  attempt 2 to 2001:db8:1::2: 10 ms after the start of attempt 1; number 2 of 6 known addresses, IPv6 first
  20 ms  attempt 3 to 2001:db8:1::3: 10 ms after the start of attempt 2; number 3 of 6 known addresses, IPv6 first
  30 ms  attempt 4 to 2001:db8:1::4: 10 ms after the start of attempt 3; number 4 of 6 known addresses, IPv6 first
  40 ms  attempt 5 to 2001:db8:1::5: 10 ms after the start of attempt 4; number 5 of 6 known addresses, IPv6 first
  45 ms  attempt 2 failed after 35 ms
  50 ms  attempt 6 to 198.51.100.1: 10 ms after the start of attempt 5; number 6 of 6 known addresses, families alternate
  55 ms  attempt 6 connected after 5 ms
  55 ms  attempt 1: no answer in 55 ms
  55 ms  attempt 3: no answer in 35 ms
  55 ms  attempt 4: no answer in 25 ms
  55 ms  attempt 5: no answer in 15 ms
an IPv4 address was known 50 ms before one was tried
