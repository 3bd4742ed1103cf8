race 1 (line 1): connected by IPv4 (198.51.100.1) in 610 ms; 250 ms lost on 2001:db8:1::1 (no answer); 350 of 610 ms waiting for DNS
where the time went: names 350 ms, lost 250 ms, connecting 10 ms
preferred, once every answer is known:
  1. 2001:db8:1::1 from 2001:db8::2
  2. 198.51.100.1 from 192.0.2.2; lower precedence: 35, the one before 40 (RFC 6724 rule 6)
course:
   20 ms  AAAA answer: 1 address to try; still waiting for the A answer
   20 ms  attempt 1 to 2001:db8:1::1: AAAA answer received; no other address known
  600 ms  A answer: 1 address to try
  600 ms  attempt 2 to 198.51.100.1: it came with the A answer; number 2 of 2 known addresses, families alternate
  610 ms  attempt 2 connected after 10 ms
  610 ms  attempt 1: no answer in 590 ms
