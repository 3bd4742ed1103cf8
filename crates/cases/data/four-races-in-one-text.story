race 1 (line 1): connected by IPv6 (2001:db8:1::1) in 55 ms; nothing lost
where the time went: names 20 ms, lost 0 ms, connecting 35 ms
preferred, once every answer is known:
  1. 2001:db8:1::1 from 2001:db8::2
  2. 198.51.100.1 from 192.0.2.2; lower precedence: 35, the one before 40 (RFC 6724 rule 6)
course:
  20 ms  AAAA answer: 1 address to try; still waiting for the A answer
  20 ms  attempt 1 to 2001:db8:1::1: AAAA answer received; no other address known
  25 ms  A answer: 1 address to try
  55 ms  attempt 1 connected after 35 ms
no address of the A answer was tried

race 2 (line 10): connected by IPv6 (2001:db8:1::1) in 320 ms; nothing lost
where the time went: names 20 ms, lost 0 ms, connecting 300 ms
preferred, once every answer is known:
  1. 2001:db8:1::1 from 2001:db8::2
  2. 198.51.100.1 from 192.0.2.2; lower precedence: 35, the one before 40 (RFC 6724 rule 6)
course:
   20 ms  AAAA answer: 1 address to try
   20 ms  A answer: 1 address to try
   20 ms  attempt 1 to 2001:db8:1::1: AAAA answer received; number 1 of 2 known addresses, IPv6 first
  270 ms  attempt 2 to 198.51.100.1: 250 ms after the start of attempt 1; number 2 of 2 known addresses, families alternate
  320 ms  attempt 1 connected after 300 ms
  320 ms  attempt 2 stopped after 50 ms
an IPv4 address was known 250 ms before one was tried

race 3 (line 20): connected by IPv6 (2001:db8:1::1) in 270 ms; nothing lost
where the time went: names 20 ms, lost 0 ms, connecting 250 ms
preferred, once every answer is known:
  1. 2001:db8:1::1 from 2001:db8::2
  2. 198.51.100.1 from 192.0.2.2; lower precedence: 35, the one before 40 (RFC 6724 rule 6)
course:
   20 ms  AAAA answer: 1 address to try
   20 ms  A answer: 1 address to try
   20 ms  attempt 1 to 2001:db8:1::1: AAAA answer received; number 1 of 2 known addresses, IPv6 first
  270 ms  attempt 1 connected after 250 ms
no address of the A answer was tried

race 4 (line 30): not connected: timed out after 2000 ms; none of 5 addresses answered; 1980 ms lost: 250 on 2001:db8:1::1 (no answer), 250 on 2001:db8:1::2 (no answer), 250 on 198.51.100.1 (no answer) and on 2 more, 730 with no address left to try
where the time went: names 20 ms, lost 1980 ms, connecting 0 ms
preferred, once every answer is known:
  1. 2001:db8:1::1 from 2001:db8::2
  2. 2001:db8:1::2 from 2001:db8::2; listed later in its answer (RFC 6724 rule 10)
  3. 2001:db8:1::3 from 2001:db8::2; listed later in its answer (RFC 6724 rule 10)
  4. 198.51.100.1 from 192.0.2.2; lower precedence: 35, the one before 40 (RFC 6724 rule 6)
  5. 198.51.100.2 from 192.0.2.2; listed later in its answer (RFC 6724 rule 10)
course:
    20 ms  AAAA answer: 3 addresses to try
    20 ms  A answer: 2 addresses to try
    20 ms  attempt 1 to 2001:db8:1::1: AAAA answer received; number 1 of 5 known addresses, IPv6 first
   270 ms  attempt 2 to 2001:db8:1::2: 250 ms after the start of attempt 1; number 2 of 5 known addresses, IPv6 first
   520 ms  attempt 3 to 198.51.100.1: 250 ms after the start of attempt 2; number 3 of 5 known addresses, families alternate
   770 ms  attempt 4 to 2001:db8:1::3: 250 ms after the start of attempt 3; number 4 of 5 known addresses, families alternate
  1020 ms  attempt 5 to 198.51.100.2: 250 ms after the start of attempt 4; number 5 of 5 known addresses, families alternate
  2000 ms  the limit: the race is given up
  2000 ms  attempt 1: no answer in 1980 ms
  2000 ms  attempt 2: no answer in 1730 ms
  2000 ms  attempt 3: no answer in 1480 ms
  2000 ms  attempt 4: no answer in 1230 ms
  2000 ms  attempt 5: no answer in 980 ms
an IPv4 address was known 500 ms before one was tried
