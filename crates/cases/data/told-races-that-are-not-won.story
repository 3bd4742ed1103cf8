race 1 (line 1): not connected: no address to try in 5 ms
where the time went: names 5 ms, lost 0 ms, connecting 0 ms
no address to try
course:
  0 ms  AAAA answer: 0 addresses to try; still waiting for the A answer
  5 ms  A answer: 0 addresses to try
  5 ms  no address left to try

race 2 (line 5): not connected: timed out after 100 ms; its 1 address did not answer; 45 ms lost on 198.51.100.1 (stopped)
where the time went: names 55 ms, lost 45 ms, connecting 0 ms
preferred, once every answer is known:
  1. 198.51.100.1 from 192.0.2.2
  2. 2001:db8::9, not reachable: no route; the one before is reachable (RFC 6724 rule 1)
course:
    5 ms  A answer: 1 address to try; still waiting for the AAAA answer
    5 ms  wait for the AAAA answer until 55 ms (Resolution Delay)
   55 ms  the wait is over, without the AAAA answer
   55 ms  attempt 1 to 198.51.100.1: the wait for the AAAA answer is over; no other address known
  100 ms  the limit: the race is given up
  100 ms  attempt 1 stopped after 45 ms
the AAAA answer came at 200 ms, after the end
an IPv4 address was known 50 ms before one was tried

race 3 (line 12): not connected: timed out after 100 ms; 1 of 1 addresses failed; 95 ms lost on 2001:db8::9 (failed)
where the time went: names 5 ms, lost 95 ms, connecting 0 ms
preferred, once every answer is known:
  1. 2001:db8::9 from 2001:db8::2
  2. 2001:db8::a from 2001:db8::2; listed later in its answer (RFC 6724 rule 10)
course:
    5 ms  AAAA answer: 2 addresses to try; still waiting for the A answer
    5 ms  attempt 1 to 2001:db8::9: AAAA answer received; number 1 of 2 known addresses, IPv6 first
   25 ms  attempt 1 failed after 20 ms
  100 ms  the limit: the race is given up
the A answer came at 101 ms, after the end

race 4 (line 20): not connected: its 1 address failed (20 ms); 20 ms lost on 198.51.100.1 (failed)
where the time went: names 0 ms, lost 20 ms, connecting 0 ms
preferred, once every answer is known:
  1. 198.51.100.1 from 192.0.2.2
course:
   0 ms  AAAA answer: 0 addresses to try
   0 ms  A answer: 1 address to try
   0 ms  attempt 1 to 198.51.100.1: both answers received; no other address known
  20 ms  attempt 1 failed after 20 ms
  20 ms  no address left to try

race 5 (line 27): not connected: all 2 addresses failed (280 ms); 280 ms lost: 250 on 2001:db8:1::1 (failed), 30 on 2001:db8:1::2 (failed)
where the time went: names 0 ms, lost 280 ms, connecting 0 ms
preferred, once every answer is known:
  1. 2001:db8:1::1 from 2001:db8::2
  2. 2001:db8:1::2 from 2001:db8::2; listed later in its answer (RFC 6724 rule 10)
course:
    0 ms  AAAA answer: 2 addresses to try
    0 ms  A answer: 0 addresses to try
    0 ms  attempt 1 to 2001:db8:1::1: AAAA answer received; number 1 of 2 known addresses, IPv6 first
   20 ms  attempt 1 failed after 20 ms
  250 ms  attempt 2 to 2001:db8:1::2: 250 ms after the start of attempt 1; number 2 of 2 known addresses, only IPv6 is left
  280 ms  attempt 2 failed after 30 ms
  280 ms  no address left to try
if the next attempt followed a failure at once (--set floor=10): not connected: no address left to try after 50 ms (2 attempts)
