race 1 (line 1): not connected: all 2 addresses failed (105 ms); 65 ms lost: 60 on 2001:db8:1::1 (failed), 5 on 198.51.100.1 (failed)
where the time went: names 20 ms, lost 65 ms, connecting 0 ms, this machine 20 ms
preferred, once every answer is known:
  1. 2001:db8:1::1 from 2001:db8::2
  2. 198.51.100.1 from 192.0.2.2; lower precedence: 35, the one before 40 (RFC 6724 rule 6)
course:
   20 ms  AAAA answer: 1 address to try
   20 ms  A answer: 1 address to try
   20 ms  attempt 1 to 2001:db8:1::1: AAAA answer received; number 1 of 2 known addresses, IPv6 first
   70 ms  this machine was busy until 100 ms: it saw and started nothing
  100 ms  attempt 1 failed after 80 ms
  100 ms  attempt 2 to 198.51.100.1: all earlier attempts failed, late because this machine was busy; number 2 of 2 known addresses, families alternate
  105 ms  attempt 2 failed after 5 ms
  105 ms  no address left to try
an IPv4 address was known 80 ms before one was tried
