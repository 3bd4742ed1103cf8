race 1 (line 1): not connected: no address to try in 40 ms
where the time went: names 40 ms, lost 0 ms, connecting 0 ms
preferred, once every answer is known:
  1. 198.51.100.1 from 192.0.2.2
course:
  10 ms  A answer: 1 address to try; still waiting for the AAAA answer
  10 ms  wait for the AAAA answer until 60 ms (Resolution Delay)
  40 ms  the limit: the race is given up
no AAAA answer came
no address of the A answer was tried
