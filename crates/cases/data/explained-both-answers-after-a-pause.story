race 1 (line 1): connected by IPv4 (198.51.100.1) in 65 ms; nothing lost
where the time went: names 40 ms, lost 0 ms, connecting 20 ms, this machine 5 ms
preferred, once every answer is known:
  1. 198.51.100.1 from 192.0.2.2
course:
  10 ms  A answer: 1 address to try; still waiting for the AAAA answer
  10 ms  wait for the AAAA answer until 60 ms (Resolution Delay)
  30 ms  this machine was busy until 45 ms: it saw and started nothing
  45 ms  AAAA answer: 0 addresses to try
  45 ms  attempt 1 to 198.51.100.1: both answers received, late because this machine was busy; no other address known
  65 ms  attempt 1 connected after 20 ms
an IPv4 address was known 35 ms before one was tried
