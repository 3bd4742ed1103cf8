race 1 (line 1): connected by IPv6 (2001:db8:1::1) in 420 ms; nothing lost
where the time went: names 60 ms, lost 0 ms, connecting 20 ms, this machine 340 ms
preferred, once every answer is known:
  1. 2001:db8:1::1 from 2001:db8::2
  2. 198.51.100.1 from 192.0.2.2; lower precedence: 35, the one before 40 (RFC 6724 rule 6)
course:
   10 ms  A answer: 1 address to try; still waiting for the AAAA answer
   10 ms  wait for the AAAA answer until 60 ms (Resolution Delay)
   30 ms  this machine was busy until 400 ms: it saw and started nothing
  400 ms  AAAA answer: 1 address to try
  400 ms  attempt 1 to 2001:db8:1::1: AAAA answer received, late because this machine was busy; number 1 of 2 known addresses, IPv6 first
  420 ms  attempt 1 connected after 20 ms
no address of the A answer was tried
