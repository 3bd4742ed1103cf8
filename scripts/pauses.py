#!/usr/bin/env python3
"""Writes a line for each pause of this machine: the time of the monotonic clock at which it ended and its length, in
seconds. Each processor has a program that sleeps for 4 ms at a time, before which no other is let: a pause is that it
wakes 1 ms late or more, as where the host of a virtual machine gives the processor to another one.

needs: Linux, the right to a real-time priority: else it writes nothing, and ends
"""
import os
import sys
import threading
import time

SLEEP, LEAST = 0.004, 0.001  # seconds


def tell(end, length):
    try:
        os.write(1, b"%.4f %.4f\n" % (end, length))
    except BrokenPipeError:
        os._exit(0)  # its reader has ended


def watch(processor):
    os.sched_setaffinity(0, [processor])  # (of this thread alone)
    while True:
        before = time.monotonic()
        time.sleep(SLEEP)
        now = time.monotonic()
        if now - before - SLEEP >= LEAST:
            tell(now, now - before - SLEEP)


try:
    os.sched_setscheduler(0, os.SCHED_FIFO, os.sched_param(os.sched_get_priority_max(os.SCHED_FIFO)))
except PermissionError:
    sys.exit()
for each in os.sched_getaffinity(0):
    threading.Thread(target=watch, args=(each,), daemon=True).start()
sys.stdin.read()  # until its parent ends
