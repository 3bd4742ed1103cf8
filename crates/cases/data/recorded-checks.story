www.example.com:443: not connected: its 1 address refused (1 ms); 1 ms lost on 2001:db8:1::1 (failed)
check: whether a server listens at 2001:db8:1::1 port 443
where the time went: names 0 ms, lost 1 ms, connecting 0 ms
preferred, once every answer is known:
  1. 2001:db8:1::1 from 2001:db8::2
course:
  0 ms  AAAA answer: 1 address to try
  0 ms  A answer: 0 addresses to try
  0 ms  attempt 1 to 2001:db8:1::1: AAAA answer received; no other address known
  1 ms  attempt 1 failed after 1 ms: refused
  1 ms  no address left to try

race 2 (line 12): connected by IPv4 (198.51.100.1) in 252 ms; 250 ms lost on 2001:db8:1::1 (failed)
check: whether a server listens at 2001:db8:1::1
where the time went: names 0 ms, lost 250 ms, connecting 2 ms
preferred, once every answer is known:
  1. 2001:db8:1::1 from 2001:db8::2
  2. 198.51.100.1 from 192.0.2.2; lower precedence: 35, the one before 40 (RFC 6724 rule 6)
course:
    0 ms  AAAA answer: 1 address to try
    0 ms  A answer: 1 address to try
    0 ms  attempt 1 to 2001:db8:1::1: AAAA answer received; number 1 of 2 known addresses, IPv6 first
    5 ms  attempt 1 failed after 5 ms: reset
  250 ms  attempt 2 to 198.51.100.1: 250 ms after the start of attempt 1; number 2 of 2 known addresses, families alternate
  252 ms  attempt 2 connected after 2 ms
an IPv4 address was known 250 ms before one was tried
if the next attempt followed a failure at once (--set floor=10): connected by IPv4 (198.51.100.1) in 12 ms

www.example.com:443: connected by IPv4 (198.51.100.1) in 252 ms; 250 ms lost on 2001:db8:1::1 (failed)
check: the path and firewalls to 2001:db8:1::1
where the time went: names 0 ms, lost 250 ms, connecting 2 ms
preferred, once every answer is known:
  1. 2001:db8:1::1 from 2001:db8::2
  2. 198.51.100.1 from 192.0.2.2; lower precedence: 35, the one before 40 (RFC 6724 rule 6)
course:
    0 ms  AAAA answer: 1 address to try
    0 ms  A answer: 1 address to try
    0 ms  attempt 1 to 2001:db8:1::1: AAAA answer received; number 1 of 2 known addresses, IPv6 first
  240 ms  attempt 1 failed after 240 ms: timed out
  250 ms  attempt 2 to 198.51.100.1: 250 ms after the start of attempt 1; number 2 of 2 known addresses, families alternate
  252 ms  attempt 2 connected after 2 ms
an IPv4 address was known 250 ms before one was tried
if the next attempt followed a failure at once (--set floor=10): connected by IPv4 (198.51.100.1) in 242 ms

race 4 (line 35): connected by IPv4 (198.51.100.1) in 252 ms; 250 ms lost on 2001:db8:1::1 (failed)
where the time went: names 0 ms, lost 250 ms, connecting 2 ms
preferred, once every answer is known:
  1. 2001:db8:1::1 from 2001:db8::2
  2. 198.51.100.1 from 192.0.2.2; lower precedence: 35, the one before 40 (RFC 6724 rule 6)
course:
    0 ms  AAAA answer: 1 address to try
    0 ms  A answer: 1 address to try
    0 ms  attempt 1 to 2001:db8:1::1: AAAA answer received; number 1 of 2 known addresses, IPv6 first
    5 ms  attempt 1 failed after 5 ms: forbidden
  250 ms  attempt 2 to 198.51.100.1: 250 ms after the start of attempt 1; number 2 of 2 known addresses, families alternate
  252 ms  attempt 2 connected after 2 ms
an IPv4 address was known 250 ms before one was tried
if the next attempt followed a failure at once (--set floor=10): connected by IPv4 (198.51.100.1) in 12 ms

race 5 (line 46): connected by IPv6 (2001:db8:1::1) in 254 ms; 252 of 254 ms waiting for DNS (192.0.2.77 did not answer)
check: the name server 192.0.2.77 (/etc/resolv.conf)
where the time went: names 252 ms, lost 0 ms, connecting 2 ms
preferred, once every answer is known:
  1. 2001:db8:1::1 from 2001:db8::2
  2. 198.51.100.1 from 192.0.2.2; lower precedence: 35, the one before 40 (RFC 6724 rule 6)
course:
  252 ms  AAAA answer: 1 address to try
  252 ms  A answer: 1 address to try
  252 ms  attempt 1 to 2001:db8:1::1: AAAA answer received; number 1 of 2 known addresses, IPv6 first
  254 ms  attempt 1 connected after 2 ms
no address of the A answer was tried
name server 192.0.2.77: no answer in 251 ms

race 6 (line 56): connected by IPv6 (2001:db8:1::1) in 504 ms; 502 of 504 ms waiting for DNS (192.0.2.77 did not answer) (192.0.2.78 did not answer)
where the time went: names 502 ms, lost 0 ms, connecting 2 ms
preferred, once every answer is known:
  1. 2001:db8:1::1 from 2001:db8::2
  2. 198.51.100.1 from 192.0.2.2; lower precedence: 35, the one before 40 (RFC 6724 rule 6)
course:
  502 ms  AAAA answer: 1 address to try
  502 ms  A answer: 1 address to try
  502 ms  attempt 1 to 2001:db8:1::1: AAAA answer received; number 1 of 2 known addresses, IPv6 first
  504 ms  attempt 1 connected after 2 ms
no address of the A answer was tried
name server 192.0.2.77: no answer in 251 ms
name server 192.0.2.78: no answer in 251 ms

race 7 (line 67): connected by IPv4 (198.51.100.1) in 1254 ms; 250 ms lost on 2001:db8:1::1 (no answer); 1002 of 1254 ms waiting for DNS (192.0.2.77 did not answer)
where the time went: names 1002 ms, lost 250 ms, connecting 2 ms
preferred, once every answer is known:
  1. 2001:db8:1::1 from 2001:db8::2
  2. 198.51.100.1 from 192.0.2.2; lower precedence: 35, the one before 40 (RFC 6724 rule 6)
course:
  1002 ms  AAAA answer: 1 address to try
  1002 ms  A answer: 1 address to try
  1002 ms  attempt 1 to 2001:db8:1::1: AAAA answer received; number 1 of 2 known addresses, IPv6 first
  1252 ms  attempt 2 to 198.51.100.1: 250 ms after the start of attempt 1; number 2 of 2 known addresses, families alternate
  1254 ms  attempt 2 connected after 2 ms
  1254 ms  attempt 1: no answer in 252 ms
an IPv4 address was known 250 ms before one was tried
name server 192.0.2.77: no answer in 1001 ms

race 8 (line 77): not connected: the name could not be looked up in 3 ms: refused (192.0.2.77 refused)
check: the name server 192.0.2.77 (/etc/resolv.conf)
where the time went: names 3 ms, lost 0 ms, connecting 0 ms
no address to try
course:
  3 ms  AAAA: refused
  3 ms  A: refused
  3 ms  no address left to try
name server 192.0.2.77: refused after 3 ms

race 9 (line 88): not connected: no such name (271 ms) (192.0.2.77 did not answer)
where the time went: names 271 ms, lost 0 ms, connecting 0 ms
no address to try
course:
  270 ms  AAAA: no such name; still waiting for the A answer
  271 ms  A: no such name
  271 ms  no address left to try
name server 192.0.2.77: no answer in 251 ms

race 10 (line 99): not connected: timed out after 2000 ms; its 1 address did not answer; 2000 ms lost: 250 on 2001:db8:1::1 (no answer), 1750 with no address left to try
check: the path and firewalls to 2001:db8:1::1
where the time went: names 0 ms, lost 2000 ms, connecting 0 ms
preferred, once every answer is known:
  1. 2001:db8:1::1 from 2001:db8::2
course:
     0 ms  AAAA answer: 1 address to try
     0 ms  A answer: 0 addresses to try
     0 ms  attempt 1 to 2001:db8:1::1: AAAA answer received; no other address known
  2000 ms  the limit: the race is given up
  2000 ms  attempt 1: no answer in 2000 ms

race 11 (line 108): not connected: timed out after 2000 ms; neither of 2 addresses answered; 2000 ms lost: 250 on 2001:db8:1::1 (no answer), 250 on 198.51.100.1 (no answer), 1500 with no address left to try
where the time went: names 0 ms, lost 2000 ms, connecting 0 ms
preferred, once every answer is known:
  1. 2001:db8:1::1 from 2001:db8::2
  2. 198.51.100.1 from 192.0.2.2; lower precedence: 35, the one before 40 (RFC 6724 rule 6)
course:
     0 ms  AAAA answer: 1 address to try
     0 ms  A answer: 1 address to try
     0 ms  attempt 1 to 2001:db8:1::1: AAAA answer received; number 1 of 2 known addresses, IPv6 first
   250 ms  attempt 2 to 198.51.100.1: 250 ms after the start of attempt 1; number 2 of 2 known addresses, families alternate
  2000 ms  the limit: the race is given up
  2000 ms  attempt 1: no answer in 2000 ms
  2000 ms  attempt 2: no answer in 1750 ms
an IPv4 address was known 250 ms before one was tried

race 12 (line 117): connected by IPv4 (198.51.100.1) in 602 ms; 250 ms lost on 2001:db8:1::1 (no answer)
where the time went: names 0 ms, lost 250 ms, connecting 2 ms, this machine 350 ms
preferred, once every answer is known:
  1. 2001:db8:1::1 from 2001:db8::2
  2. 198.51.100.1 from 192.0.2.2; lower precedence: 35, the one before 40 (RFC 6724 rule 6)
course:
    0 ms  AAAA answer: 1 address to try
    0 ms  A answer: 1 address to try
    0 ms  attempt 1 to 2001:db8:1::1: AAAA answer received; number 1 of 2 known addresses, IPv6 first
  250 ms  this machine was busy until 600 ms: it saw and started nothing
  600 ms  attempt 2 to 198.51.100.1: 250 ms after the start of attempt 1, late because this machine was busy; number 2 of 2 known addresses, families alternate
  602 ms  attempt 2 connected after 2 ms
  602 ms  attempt 1: no answer in 602 ms
an IPv4 address was known 600 ms before one was tried

race 13 (line 127): connected by IPv4 (198.51.100.2) in 503 ms; 250 ms lost on 198.51.100.1 (failed)
where the time went: names 0 ms, lost 250 ms, connecting 3 ms, unknown 250 ms
preferred, once every answer is known:
  1. 2001:db8:1::1 from 2001:db8::2
  2. 198.51.100.1 from 192.0.2.2; lower precedence: 35, the one before 40 (RFC 6724 rule 6)
  3. 198.51.100.2 from 192.0.2.2; listed later in its answer (RFC 6724 rule 10)
course:
    0 ms  AAAA answer: 1 address to try
    0 ms  A answer: 2 addresses to try
    0 ms  attempt 1 to 2001:db8:1::1: AAAA answer received; number 1 of 3 known addresses, IPv6 first
  250 ms  attempt 2 to 198.51.100.1: 250 ms after the start of attempt 1; number 2 of 3 known addresses, families alternate
  252 ms  attempt 2 failed after 2 ms: refused
  500 ms  attempt 3 to 198.51.100.2: 250 ms after the start of attempt 2; number 3 of 3 known addresses, only IPv4 is left
  503 ms  attempt 3 connected after 3 ms
  503 ms  attempt 1: no client tried it, unknown after 503 ms
an IPv4 address was known 250 ms before one was tried
no client tried 2001:db8:1::1: its outcome is unknown
