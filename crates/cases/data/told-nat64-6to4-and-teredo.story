race 1 (line 1): connected by IPv6 (64:ff9b::c633:6401) in 560 ms; 500 ms lost: 250 on 2001:db8:1::1 (no answer), 250 on 198.51.100.1 (no answer)
where the time went: names 20 ms, lost 500 ms, connecting 40 ms
preferred, once every answer is known:
  1. 2001:db8:1::1 from 2001:db8:5::2
  2. 64:ff9b::c633:6401 is 198.51.100.1 (NAT64) from 2001:db8:5::2; bits in common with its source 2, the one before 45 (RFC 6724 rule 9)
  3. 2002:c633:6401::1 (6to4) from 2001:db8:5::2; label 2, its source 1 (RFC 6724 rule 5)
  4. 2001:0:c633:6401::1 (Teredo) from 2001:db8:5::2; lower precedence: 5, the one before 30 (RFC 6724 rule 6)
  5. 198.51.100.1, not reachable: no route; the one before is reachable (RFC 6724 rule 1)
course:
   20 ms  AAAA answer: 4 addresses to try; still waiting for the A answer
   20 ms  attempt 1 to 2001:db8:1::1: AAAA answer received; number 1 of 4 known addresses, IPv6 first
   30 ms  A answer: 1 address to try
  270 ms  attempt 2 to 198.51.100.1: 250 ms after the start of attempt 1; number 2 of 5 known addresses, families alternate
  520 ms  attempt 3 to 64:ff9b::c633:6401: 250 ms after the start of attempt 2; number 3 of 5 known addresses, families alternate
  560 ms  attempt 3 connected after 40 ms
  560 ms  attempt 1: no answer in 540 ms
  560 ms  attempt 2: no answer in 290 ms
an IPv4 address was known 240 ms before one was tried
