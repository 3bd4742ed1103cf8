race 1 (line 1): not connected: timed out after 30000 ms; neither of 2 addresses answered; 500 ms lost: 250 on fe80::5 (no answer), 250 on 2001:db8:1::1 (no answer); 29500 of 30000 ms waiting for DNS
where the time went: names 29500 ms, lost 500 ms, connecting 0 ms
preferred, once every answer is known:
  1. fe80::5 from fe80::1
  2. 2001:db8:1::1 from 2001:db8::2; scope 14, the one before 2 (RFC 6724 rule 8)
course:
      0 ms  AAAA answer: 2 addresses to try; still waiting for the A answer
      0 ms  attempt 1 to fe80::5: AAAA answer received; number 1 of 2 known addresses, IPv6 first
    250 ms  attempt 2 to 2001:db8:1::1: 250 ms after the start of attempt 1; number 2 of 2 known addresses, only IPv6 is left
  30000 ms  the limit: the race is given up
  30000 ms  attempt 1: no answer in 30000 ms
  30000 ms  attempt 2: no answer in 29750 ms
no A answer came
