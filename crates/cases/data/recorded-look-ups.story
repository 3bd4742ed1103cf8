race 1 (line 1): not connected: no such name (25 ms) (192.0.2.1 refused) (192.0.2.2 failed) (192.0.2.3 was unreachable) (2001:db8::53 did not answer)
where the time went: names 25 ms, lost 0 ms, connecting 0 ms
no address to try
course:
  20 ms  AAAA: no such name; still waiting for the A answer
  25 ms  A: no such name
  25 ms  no address left to try
name server 192.0.2.1: refused after 1 ms
name server 192.0.2.2: failed after 2 ms
name server 192.0.2.3: unreachable after 3 ms
name server 2001:db8::53: no answer in 5000 ms

race 2 (line 11): not connected: no address to try in 2000 ms
where the time went: names 2000 ms, lost 0 ms, connecting 0 ms
no address to try
course:
    20 ms  AAAA answer: 0 addresses to try; still waiting for the A answer
  2000 ms  the limit: the race is given up
no A answer came: not asked

race 3 (line 16): not connected: the name could not be looked up in 22 ms: the name servers failed
where the time went: names 22 ms, lost 0 ms, connecting 0 ms
no address to try
course:
  22 ms  AAAA: no address (4 ms late)
  22 ms  A: the name servers failed (4 ms late)
  22 ms  no address left to try

race 4 (line 23): connected by IPv4 (198.51.100.80) in 80 ms; nothing lost
where the time went: names 70 ms, lost 0 ms, connecting 10 ms
preferred, once every answer is known:
  1. 198.51.100.80 from 192.0.2.2
course:
  20 ms  A answer: 1 address to try; still waiting for the AAAA answer
  20 ms  wait for the AAAA answer until 70 ms (Resolution Delay)
  70 ms  the wait is over, without the AAAA answer
  70 ms  attempt 1 to 198.51.100.80: the wait for the AAAA answer is over; no other address known
  80 ms  attempt 1 connected after 10 ms
the AAAA answer came at 400 ms, after the end: a malformed answer
an IPv4 address was known 50 ms before one was tried

race 5 (line 31): connected by IPv6 (2001:db8::80) in 30 ms; nothing lost
where the time went: names 20 ms, lost 0 ms, connecting 10 ms
preferred, once every answer is known:
  1. 2001:db8::80 from 2001:db8::2
course:
   5 ms  A answer: 0 addresses to try; still waiting for the AAAA answer
  20 ms  AAAA: refused: 1 address to try
  20 ms  attempt 1 to 2001:db8::80: AAAA answer received; no other address known
  30 ms  attempt 1 connected after 10 ms

race 6 (line 39): not connected: the name could not be looked up in 5000 ms: no answer
where the time went: names 5000 ms, lost 0 ms, connecting 0 ms
no address to try
course:
  5000 ms  the limit: the race is given up
no AAAA answer came: no answer
no A answer came: no answer
