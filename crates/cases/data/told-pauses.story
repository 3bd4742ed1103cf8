race 1 (line 1): connected by IPv6 (2001:db8:1::1) in 510 ms; 250 ms lost on 198.51.100.1 (no answer)
check: the path and firewalls to 198.51.100.1
where the time went: names 75 ms, lost 250 ms, connecting 30 ms, this machine 155 ms
preferred, once every answer is known:
  1. 198.51.100.1 from 192.0.2.2
  2. 198.51.100.2 from 192.0.2.2; listed later in its answer (RFC 6724 rule 10)
  3. 2001:db8:1::1 from 2001:db8::2; lower precedence: 30, the one before 35 (RFC 6724 rule 6)
course:
   25 ms  A answer: 2 addresses to try; still waiting for the AAAA answer
   25 ms  wait for the AAAA answer until 75 ms (Resolution Delay)
   50 ms  this machine was busy until 210 ms: it saw and started nothing
  210 ms  the wait is over, without the AAAA answer
  210 ms  attempt 1 to 198.51.100.1: the wait for the AAAA answer is over, late because this machine was busy; number 1 of 2 known addresses, IPv4 first
  230 ms  AAAA answer: 1 address to try
  300 ms  this machine was busy until 480 ms: it saw and started nothing
  480 ms  attempt 2 to 2001:db8:1::1: 250 ms after the start of attempt 1, late because this machine was busy; number 2 of 3 known addresses, families alternate
  510 ms  attempt 2 connected after 30 ms
  510 ms  attempt 1: no answer in 300 ms
an IPv6 address was known 250 ms before one was tried
an IPv4 address was known 185 ms before one was tried

race 2 (line 15): connected by IPv4 (198.51.100.1) in 430 ms; 30 ms lost: 10 on 2001:db8:1::1 (failed), 10 on 2001:db8:1::2 (failed), 10 on 2001:db8:1::3 (failed); 360 of 430 ms waiting for DNS
where the time went: names 360 ms, lost 30 ms, connecting 20 ms, this machine 20 ms
preferred, once every answer is known:
  1. 2001:db8:1::1 from 2001:db8::2
  2. 2001:db8:1::2 from 2001:db8::2; listed later in its answer (RFC 6724 rule 10)
  3. 2001:db8:1::3 from 2001:db8::2; listed later in its answer (RFC 6724 rule 10)
  4. 198.51.100.1 from 192.0.2.2; lower precedence: 35, the one before 40 (RFC 6724 rule 6)
course:
   20 ms  AAAA answer: 3 addresses to try; still waiting for the A answer
   20 ms  attempt 1 to 2001:db8:1::1: AAAA answer received; number 1 of 3 known addresses, IPv6 first
   22 ms  this machine was busy until 40 ms: it saw and started nothing
   40 ms  attempt 1 failed after 20 ms
   40 ms  attempt 2 to 2001:db8:1::2: all earlier attempts failed; 10 ms after attempt 1 (set floor), late because this machine was busy; number 2 of 3 known addresses, IPv6 first
   45 ms  attempt 2 failed after 5 ms
   50 ms  attempt 3 to 2001:db8:1::3: all earlier attempts failed; 10 ms after attempt 2 (set floor); number 3 of 3 known addresses, only IPv6 is left
   55 ms  attempt 3 failed after 5 ms
  390 ms  this machine was busy until 410 ms: it saw and started nothing
  410 ms  A answer: 1 address to try
  410 ms  attempt 4 to 198.51.100.1: it came with the A answer, late because this machine was busy; number 3 of 4 known addresses, families alternate
  430 ms  attempt 4 connected after 20 ms
