race 1 (line 1): connected by IPv6 (2001:db8:1::5) in 290 ms; 250 ms lost on 2001:db8:1::4 (failed)
where the time went: names 20 ms, lost 250 ms, connecting 20 ms
preferred, once every answer is known:
  1. 2001:db8:1::4 from 2001:db8::2
  2. 2001:db8:1::5 from 2001:db8::2; round trip time 80 ms, the one before 30 ms (RFC 8305 section 4)
  3. 2001:db8:1::3 from 2001:db8::2; round trip time unknown, the one before 80 ms (RFC 8305 section 4)
  4. 2001:db8:1::1 from 2001:db8::2; the one before was used before (RFC 8305 section 4)
  5. 2001:db8:1::2 from 2001:db8::2; listed later in its answer (RFC 6724 rule 10)
course:
   20 ms  AAAA answer: 5 addresses to try; still waiting for the A answer
   20 ms  attempt 1 to 2001:db8:1::4: AAAA answer received; number 1 of 5 known addresses, IPv6 first
   25 ms  A answer: 0 addresses to try
   40 ms  attempt 1 failed after 20 ms
  270 ms  attempt 2 to 2001:db8:1::5: 250 ms after the start of attempt 1; number 2 of 5 known addresses, only IPv6 is left
  290 ms  attempt 2 connected after 20 ms
if the next attempt followed a failure at once (--set floor=10): connected by IPv6 (2001:db8:1::5) in 60 ms
