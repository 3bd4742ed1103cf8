race 1 (line 1): connected by IPv4 (192.0.2.19) in 339 ms; 80 ms lost: 10 on 192.0.2.10 (failed), 10 on 192.0.2.11 (failed), 10 on 192.0.2.12 (failed) and on 5 more
where the time went: names 0 ms, lost 80 ms, connecting 9 ms, unknown 250 ms
preferred, once every answer is known:
   1. 192.0.2.10 from 192.0.2.2
   2. 192.0.2.11 from 192.0.2.2; listed later in its answer (RFC 6724 rule 10)
   3. 192.0.2.12 from 192.0.2.2; listed later in its answer (RFC 6724 rule 10)
   4. 192.0.2.13 from 192.0.2.2; listed later in its answer (RFC 6724 rule 10)
   5. 192.0.2.14 from 192.0.2.2; listed later in its answer (RFC 6724 rule 10)
   6. 192.0.2.15 from 192.0.2.2; listed later in its answer (RFC 6724 rule 10)
   7. 192.0.2.16 from 192.0.2.2; listed later in its answer (RFC 6724 rule 10)
   8. 192.0.2.17 from 192.0.2.2; listed later in its answer (RFC 6724 rule 10)
   9. 192.0.2.18 from 192.0.2.2; listed later in its answer (RFC 6724 rule 10)
  10. 192.0.2.19 from 192.0.2.2; listed later in its answer (RFC 6724 rule 10)
course:
    0 ms  AAAA answer: 0 addresses to try
    0 ms  A answer: 10 addresses to try
    0 ms  attempt 1 to 192.0.2.10: both answers received; number 1 of 10 known addresses, IPv4 first
    1 ms  attempt 1 failed after 1 ms: refused
   10 ms  attempt 2 to 192.0.2.11: all earlier attempts failed; 10 ms after attempt 1 (set floor); number 2 of 10 known addresses, only IPv4 is left
   12 ms  attempt 2 failed after 2 ms: unreachable
   20 ms  attempt 3 to 192.0.2.12: all earlier attempts failed; 10 ms after attempt 2 (set floor); number 3 of 10 known addresses, only IPv4 is left
   23 ms  attempt 3 failed after 3 ms: timed out
   30 ms  attempt 4 to 192.0.2.13: all earlier attempts failed; 10 ms after attempt 3 (set floor); number 4 of 10 known addresses, only IPv4 is left
   34 ms  attempt 4 failed after 4 ms: reset
   40 ms  attempt 5 to 192.0.2.14: all earlier attempts failed; 10 ms after attempt 4 (set floor); number 5 of 10 known addresses, only IPv4 is left
   45 ms  attempt 5 failed after 5 ms: forbidden
   50 ms  attempt 6 to 192.0.2.15: all earlier attempts failed; 10 ms after attempt 5 (set floor); number 6 of 10 known addresses, only IPv4 is left
   56 ms  attempt 6 failed after 6 ms: no source address
   60 ms  attempt 7 to 192.0.2.16: all earlier attempts failed; 10 ms after attempt 6 (set floor); number 7 of 10 known addresses, only IPv4 is left
   67 ms  attempt 7 failed after 7 ms: for another reason
   70 ms  attempt 8 to 192.0.2.17: all earlier attempts failed; 10 ms after attempt 7 (set floor); number 8 of 10 known addresses, only IPv4 is left
   78 ms  attempt 8 failed after 8 ms
   80 ms  attempt 9 to 192.0.2.18: all earlier attempts failed; 10 ms after attempt 8 (set floor); number 9 of 10 known addresses, only IPv4 is left
  330 ms  attempt 10 to 192.0.2.19: 250 ms after the start of attempt 9; number 10 of 10 known addresses, only IPv4 is left
  339 ms  attempt 10 connected after 9 ms
  339 ms  attempt 9: no client tried it, unknown after 259 ms
no client tried 192.0.2.18: its outcome is unknown
no client tried 203.0.113.2: its outcome is unknown
