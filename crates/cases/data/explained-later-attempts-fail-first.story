race 1 (line 1): not connected: all 12 addresses failed (1700 ms); 1700 ms lost: 100 on 2001:db8:1::1 (failed), 100 on 2001:db8:1::2 (failed), 100 on 2001:db8:1::3 (failed) and on 9 more, 500 with no address left to try
where the time went: names 0 ms, lost 1700 ms, connecting 0 ms
preferred, once every answer is known:
   1. 2001:db8:1::1 from 2001:db8::2
   2. 2001:db8:1::2 from 2001:db8::2; listed later in its answer (RFC 6724 rule 10)
   3. 2001:db8:1::3 from 2001:db8::2; listed later in its answer (RFC 6724 rule 10)
   4. 2001:db8:1::4 from 2001:db8::2; listed later in its answer (RFC 6724 rule 10)
   5. 2001:db8:1::5 from 2001:db8::2; listed later in its answer (RFC 6724 rule 10)
   6. 2001:db8:1::6 from 2001:db8::2; listed later in its answer (RFC 6724 rule 10)
   7. 2001:db8:1::7 from 2001:db8::2; listed later in its answer (RFC 6724 rule 10)
   8. 2001:db8:1::8 from 2001:db8::2; listed later in its answer (RFC 6724 rule 10)
   9. 2001:db8:1::9 from 2001:db8::2; listed later in its answer (RFC 6724 rule 10)
  10. 2001:db8:1::a from 2001:db8::2; listed later in its answer (RFC 6724 rule 10)
  11. 2001:db8:1::b from 2001:db8::2; listed later in its answer (RFC 6724 rule 10)
  12. 2001:db8:1::c from 2001:db8::2; listed later in its answer (RFC 6724 rule 10)
course:
     0 ms  AAAA answer: 12 addresses to try
     0 ms  A answer: 0 addresses to try
     0 ms  attempt 1 to 2001:db8:1::1: AAAA answer received; number 1 of 12 known addresses, IPv6 first
   100 ms  attempt 2 to 2001:db8:1::2: 100 ms after the start of attempt 1; number 2 of 12 known addresses, only IPv6 is left
   200 ms  attempt 3 to 2001:db8:1::3: 100 ms after the start of attempt 2; number 3 of 12 known addresses, only IPv6 is left
   300 ms  attempt 4 to 2001:db8:1::4: 100 ms after the start of attempt 3; number 4 of 12 known addresses, only IPv6 is left
   400 ms  attempt 5 to 2001:db8:1::5: 100 ms after the start of attempt 4; number 5 of 12 known addresses, only IPv6 is left
   500 ms  attempt 6 to 2001:db8:1::6: 100 ms after the start of attempt 5; number 6 of 12 known addresses, only IPv6 is left
   600 ms  attempt 6 failed after 100 ms
   600 ms  attempt 7 to 2001:db8:1::7: 100 ms after the start of attempt 6; number 7 of 12 known addresses, only IPv6 is left
   700 ms  attempt 5 failed after 300 ms
   700 ms  attempt 8 to 2001:db8:1::8: 100 ms after the start of attempt 7; number 8 of 12 known addresses, only IPv6 is left
   800 ms  attempt 4 failed after 500 ms
   800 ms  attempt 9 to 2001:db8:1::9: 100 ms after the start of attempt 8; number 9 of 12 known addresses, only IPv6 is left
   900 ms  attempt 3 failed after 700 ms
   900 ms  attempt 10 to 2001:db8:1::a: 100 ms after the start of attempt 9; number 10 of 12 known addresses, only IPv6 is left
  1000 ms  attempt 2 failed after 900 ms
  1000 ms  attempt 11 to 2001:db8:1::b: 100 ms after the start of attempt 10; number 11 of 12 known addresses, only IPv6 is left
  1100 ms  attempt 1 failed after 1100 ms
  1100 ms  attempt 12 to 2001:db8:1::c: 100 ms after the start of attempt 11; number 12 of 12 known addresses, only IPv6 is left
  1200 ms  attempt 12 failed after 100 ms
  1300 ms  attempt 11 failed after 300 ms
  1400 ms  attempt 10 failed after 500 ms
  1500 ms  attempt 9 failed after 700 ms
  1600 ms  attempt 8 failed after 900 ms
  1700 ms  attempt 7 failed after 1100 ms
  1700 ms  no address left to try
