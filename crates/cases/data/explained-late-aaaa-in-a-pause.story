race 1 (line 1): connected by IPv6 (2001:db8:1::1) in 450 ms; 250 ms lost on 198.51.100.1 (no answer)
check: the path and firewalls to 198.51.100.1
where the time went: names 150 ms, lost 250 ms, connecting 30 ms, this machine 20 ms
preferred, once every answer is known:
  1. 2001:db8:1::1 from 2001:db8::2
  2. 198.51.100.1 from 192.0.2.2; lower precedence: 35, the one before 40 (RFC 6724 rule 6)
course:
   10 ms  A answer: 1 address to try; still waiting for the AAAA answer
   10 ms  wait for the AAAA answer until 60 ms (Resolution Delay)
   60 ms  the wait is over, without the AAAA answer
   60 ms  attempt 1 to 198.51.100.1: the wait for the AAAA answer is over; no other address known
  390 ms  this machine was busy until 420 ms: it saw and started nothing
  420 ms  AAAA answer: 1 address to try
  420 ms  attempt 2 to 2001:db8:1::1: it came with the AAAA answer, late because this machine was busy; number 1 of 2 known addresses, IPv6 first
  450 ms  attempt 2 connected after 30 ms
  450 ms  attempt 1: no answer in 390 ms
an IPv4 address was known 50 ms before one was tried
