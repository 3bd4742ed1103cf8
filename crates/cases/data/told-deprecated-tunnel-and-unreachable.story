race 1 (line 1): connected by IPv6 (2001:db8:1::1) in 60 ms; nothing lost
where the time went: names 20 ms, lost 0 ms, connecting 40 ms
preferred, once every answer is known:
  1. 2001:db8:1::1 from 2001:db8:5::2
  2. 2001:db8:7::80 from 2001:db8:7::2; its route is a tunnel (RFC 6724 rule 7)
  3. 198.51.100.1 from 192.168.1.23; its source is deprecated (RFC 6724 rule 3)
  4. fe80::9 from 2001:db8:5::2; scope 2, its source 14 (RFC 6724 rule 2)
course:
  20 ms  AAAA answer: 3 addresses to try; still waiting for the A answer
  20 ms  attempt 1 to 2001:db8:1::1: AAAA answer received; number 1 of 3 known addresses, IPv6 first
  25 ms  A answer: 1 address to try
  60 ms  attempt 1 connected after 40 ms
no address of the A answer was tried

race 2 (line 12): connected by IPv4 (198.51.100.1) in 50 ms; nothing lost
where the time went: names 20 ms, lost 0 ms, connecting 30 ms
preferred, once every answer is known:
  1. 198.51.100.1 from 192.168.1.23
  2. 2001:db8:1::1, not reachable: no source address; the one before is reachable (RFC 6724 rule 1)
  3. 2001:db9::1, not reachable: no route; listed later in its answer (RFC 6724 rule 10)
course:
  20 ms  AAAA answer: 2 addresses to try
  20 ms  A answer: 1 address to try
  20 ms  attempt 1 to 198.51.100.1: AAAA answer received; number 1 of 3 known addresses, IPv4 first
  50 ms  attempt 1 connected after 30 ms
no address of the AAAA answer was tried
