#!/usr/bin/env python3
"""What the library for C answers to Python: bindings.py, for each call and each error; or bindings.py WORD [SECOND],
which gives the lines of standard input to a session, and writes its answers."""
import sys

import cpe

FS = "cpe:2.3:a:microsoft:internet_explorer:8.0.6001:beta:*:*:*:*:*:*"
URI = "cpe:/a:microsoft:internet_explorer:8.0.6001:beta"
ANY = "cpe:2.3:a:microsoft:internet_explorer:8.*:*:*:*:*:*:*:*"


def raises(kind, call, *words):
    try:
        call(*words)
    except kind as error:
        return error
    raise AssertionError(f"no {kind.__name__}: {words}")


def try_each():
    wfn = cpe.unbind(FS)
    assert wfn == cpe.unbind(URI.encode()) and wfn.startswith('wfn:[part="a",vendor="microsoft",')
    assert cpe.bind_fs(wfn) == FS and cpe.bind_uri(wfn) == URI
    assert raises(cpe.Refused, cpe.unbind, "cpe:2.3:x:").place == 8
    assert raises(cpe.Refused, cpe.bind_fs, "wfn:[").place == 0
    assert cpe.covers(ANY, FS) and not cpe.covers(FS, ANY)
    found = cpe.relate(ANY, FS)
    assert found["whole"] == found["version"] == "SUPERSET" and found["part"] == "EQUAL"
    assert cpe.relate(FS, ANY)["whole"] == "UNDEFINED"
    assert raises(cpe.Refused, cpe.covers, FS, "cpe:/x").target and not raises(cpe.Refused, cpe.relate, "x", FS).target
    raises(TypeError, cpe.unbind, 3)
    raises(ValueError, cpe.Session, "make", "5")
    raises(ValueError, cpe.Session, "unbind\0")
    raises(ValueError, cpe.Session, "unbind", "")
    with cpe.Session("unbind") as session:
        assert session.line(FS) == wfn.encode() + b"\n"
        raises(ValueError, session.line, "a\nb")
        assert session.line(b"x\r") == b"refused 2 name 0\n"
        long = "cpe:2.3:a:v:" + 20000 * "a" + 8 * ":*"
        assert session.line(long) == cpe.unbind(long).encode() + b"\n"
        assert session.end() == b"" and session.status == 1
        raises(RuntimeError, session.end)
        raises(RuntimeError, session.line, FS)
    raises(ValueError, session.line, FS)
    session.close()


def speak(*words):
    with cpe.Session(*words) as session:
        for line in sys.stdin.buffer:
            sys.stdout.buffer.write(session.line(line.rstrip(b"\n")))
        sys.stdout.buffer.write(session.end())
        sys.stdout.flush()
        return session.status


if len(sys.argv) == 1:
    try_each()
else:
    sys.exit(speak(*sys.argv[1:]))
