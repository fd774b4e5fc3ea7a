#!/usr/bin/env python3
# Calls a command on a terminal, sends SIGTERM to it once it shows progress, and prints its status, and whether the terminal is quiet then: all
# that wrote there has ended within five seconds.
import os, pty, re, signal, sys, time

child, end = pty.fork()
if child == 0:
    os.execv(sys.argv[1], sys.argv[1:])
seen = b""
while not re.search(rb": \d+ s", seen):
    seen += os.read(end, 4096)
os.kill(child, signal.SIGTERM)
began = time.time()
status = os.waitstatus_to_exitcode(os.waitpid(child, 0)[1])
try:
    while os.read(end, 4096) and time.time() < began + 5:
        pass
except OSError:
    pass
print(status, "yes" if time.time() < began + 5 else "no")
