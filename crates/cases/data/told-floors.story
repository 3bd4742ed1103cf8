race 1 (line 1): connected by IPv4 (198.51.100.2) in 280 ms; 230 ms lost: 100 on 2001:db8:1::1 (failed), 130 on 198.51.100.1 (failed)
where the time went: names 20 ms, lost 230 ms, connecting 30 ms
preferred, once every answer is known:
  1. 2001:db8:1::1 from 2001:db8::2
  2. 198.51.100.1 from 192.0.2.2; lower precedence: 35, the one before 40 (RFC 6724 rule 6)
  3. 198.51.100.2 from 192.0.2.2; listed later in its answer (RFC 6724 rule 10)
course:
   20 ms  AAAA answer: 1 address to try
   20 ms  A answer: 2 addresses to try
   20 ms  attempt 1 to 2001:db8:1::1: AAAA answer received; number 1 of 3 known addresses, IPv6 first
   80 ms  attempt 1 failed after 60 ms
  120 ms  attempt 2 to 198.51.100.1: all earlier attempts failed; 100 ms after attempt 1 (set floor); number 2 of 3 known addresses, families alternate
  250 ms  attempt 2 failed after 130 ms
  250 ms  attempt 3 to 198.51.100.2: all earlier attempts failed; number 3 of 3 known addresses, only IPv4 is left
  280 ms  attempt 3 connected after 30 ms
an IPv4 address was known 100 ms before one was tried

race 2 (line 13): connected by IPv4 (198.51.100.1) in 300 ms; 250 ms lost on 2001:db8:1::1 (failed)
where the time went: names 20 ms, lost 250 ms, connecting 30 ms
preferred, once every answer is known:
  1. 2001:db8:1::1 from 2001:db8::2
  2. 198.51.100.1 from 192.0.2.2; lower precedence: 35, the one before 40 (RFC 6724 rule 6)
course:
   20 ms  AAAA answer: 1 address to try
   20 ms  A answer: 1 address to try
   20 ms  attempt 1 to 2001:db8:1::1: AAAA answer received; number 1 of 2 known addresses, IPv6 first
   21 ms  attempt 1 failed after 1 ms
  270 ms  attempt 2 to 198.51.100.1: 250 ms after the start of attempt 1; number 2 of 2 known addresses, families alternate
  300 ms  attempt 2 connected after 30 ms
an IPv4 address was known 250 ms before one was tried
if the next attempt followed a failure at once (--set floor=10): connected by IPv4 (198.51.100.1) in 60 ms
