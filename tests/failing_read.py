#!/usr/bin/env python3
"""Runs a program on the bytes of a file, after which a read fails: failing_read.py FILE PROGRAM WORD..

Standard input is a pipe that holds all of the bytes. Its other end stays open, and reads don't wait, so the read after
the bytes fails. Ends with status 77 if no pipe can hold that many bytes.
"""
import fcntl
import os
import sys

data = open(sys.argv[1], "rb").read()
source, end = os.pipe()
try:
    size = fcntl.fcntl(end, getattr(fcntl, "F_SETPIPE_SZ", 1031), 1 << 20)
except OSError:
    size = 1 << 16
if size < len(data):
    sys.exit(77)
os.write(end, data)
os.set_inheritable(end, True)
os.set_blocking(source, False)
os.dup2(source, 0)
os.execv(sys.argv[2], sys.argv[2:])
