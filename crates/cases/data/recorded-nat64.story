203.0.113.80:443: connected by IPv6 (2001:db8:122:344:cb:71:5000:0) in 30 ms; nothing lost
where the time went: names 20 ms, lost 0 ms, connecting 10 ms
preferred, once every answer is known:
  1. 2001:db8:122:344:cb:71:5000:0 is 203.0.113.80 (NAT64) from 2001:db8::2
  2. 64:ff9b::cb00:7150 is 203.0.113.80 (NAT64) from 2001:db8::2; bits in common with its source 2, the one before 39 (RFC 6724 rule 9)
course:
   0 ms  A: through NAT64; still waiting for the AAAA answer
  20 ms  AAAA answer: 2 addresses to try
  20 ms  attempt 1 to 2001:db8:122:344:cb:71:5000:0: AAAA answer received; number 1 of 2 known addresses, IPv6 first
  30 ms  attempt 1 connected after 10 ms
the network's NAT64 prefix is 64:ff9b::/96
the network's NAT64 prefix is 2001:db8:122:344::/64
