race 1 (line 1): not connected: no address to try in 100 ms
where the time went: names 100 ms, lost 0 ms, connecting 0 ms
no address to try
course:
   90 ms  this machine was busy until 200 ms: it saw and started nothing
  100 ms  the limit: the race is given up
no AAAA answer came
no A answer came
