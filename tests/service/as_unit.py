"""Runs what the units of the service run, as they have it run, as far as that needs no systemd that runs, and asks the
service.

    unshare --mount --net /usr/bin/python3 -B tests/service/as_unit.py PACKAGE ROOM

PACKAGE is the package for Debian, unpacked, and ROOM an empty folder. The command lines are those of the units, letter
by letter: the package is laid over /usr, and ROOM has the state. All else can't be written, homes and devices aren't
there, and the network is this machine's own. Each command has a user without any rights, and the filter of system calls
of its unit. What systemd alone does isn't shown: that it makes the user and the folders, starts what ended, keeps time,
and filters addresses (IPAddressDeny).

Root, util-linux, systemd-analyze, and Python's modules seccomp, starlette and uvicorn (Debian's). It ends with status 0
if all is right.
"""
import contextlib
import ctypes
import errno
import fcntl
import http.client
import json
import os
import re
import resource
import shlex
import signal
import socket
import struct
import subprocess
import sys
import time
from pathlib import Path

import seccomp

ROOT = Path(__file__).resolve().parents[2]
SAMPLES = ROOT / "recipes" / "samples" / "ranges"
STATE = Path("/var/lib/cpe-service")
NOBODY = 65_534
PATIENCE = 120
# Settings of a unit that this file applies, and those that only systemd can apply.
DONE = {
    "ExecStart", "Environment", "DynamicUser", "User", "StateDirectory", "StateDirectoryMode", "LimitNOFILE", "ProtectSystem", "ProtectHome",
    "PrivateTmp", "PrivateDevices", "PrivateNetwork", "ProtectKernelTunables", "ProtectControlGroups", "ProtectProc", "NoNewPrivileges",
    "CapabilityBoundingSet", "RestrictAddressFamilies", "RestrictNamespaces", "RestrictRealtime", "RestrictSUIDSGID", "LockPersonality",
    "MemoryDenyWriteExecute", "SystemCallArchitectures", "SystemCallFilter", "SystemCallErrorNumber",
    # (without capabilities and these system calls they hold anyway)
    "ProtectKernelModules", "ProtectKernelLogs", "ProtectClock", "ProtectHostname",
}
OF_SYSTEMD = {"Type", "Restart", "RestartSec", "IPAddressDeny", "IPAddressAllow"}
_NAMESPACES = (0x00020000, 0x02000000, 0x04000000, 0x08000000, 0x10000000, 0x20000000, 0x40000000)
# A command that tries what a unit forbids and allows, and prints the results.
PROBE = """
import ctypes, errno, mmap, os, socket
def tried(does):
    try:
        does()
        return "done"
    except OSError as fault:
        return errno.errorcode[fault.errno]
print(tried(lambda: open("/usr/probe", "w")), tried(lambda: open("/var/lib/probe", "w")), tried(lambda: open("/tmp/probe", "w")),
      tried(lambda: open("/var/lib/cpe-service/probe", "w")), tried(lambda: socket.socket(socket.AF_PACKET, socket.SOCK_RAW)),
      tried(lambda: mmap.mmap(-1, 4096, prot=mmap.PROT_WRITE | mmap.PROT_EXEC)), tried(lambda: os.chown("/tmp/probe", 0, 0)),
      tried(lambda: os.chmod("/tmp/probe", 0o4755)), os.listdir("/home"), os.path.exists("/dev/kmsg"), os.getuid(), os.getgroups())
os.remove("/var/lib/cpe-service/probe")
os.remove("/tmp/probe")
"""
PROBED = "EROFS EROFS done done EAFNOSUPPORT EPERM EPERM EPERM [] False 65534 []\n"


class Unit:
    """The section of a service in a unit."""

    def __init__(self, path):
        self.values = {}
        part = path.read_text().partition("[Service]\n")[2].partition("\n[")[0]
        for line in part.splitlines():
            if line and not line.startswith("#"):
                key, _, value = line.partition("=")
                self.values.setdefault(key, []).append(value)
        strange = set(self.values) - DONE - OF_SYSTEMD
        if strange:
            sys.exit(f"{path.name} has {', '.join(sorted(strange))}, which is not known here")

    def one(self, key):
        [value] = self.values[key]
        return value

    def words(self):
        return shlex.split(self.one("ExecStart"))

    def environment(self):
        return dict(one.split("=", 1) for one in shlex.split(self.one("Environment")))


def system_calls(words):
    """The system calls that these words of a filter name."""
    found, waiting = set(), list(words)
    while waiting:
        word = waiting.pop()
        if not word.startswith("@"):
            found.add(word)
            continue
        run = subprocess.run(["systemd-analyze", "syscall-filter", word], capture_output=True, text=True, check=True)
        lines = (line.strip() for line in run.stdout.splitlines()[1:])
        waiting += [line for line in lines if line and not line.startswith("#")]
        waiting += [line.lstrip("# ") for line in run.stdout.splitlines()[1:] if line.strip().startswith("# @")]
    return found


def filters(unit):
    """The filters of system calls of a unit: those that it may use, and how it may use some."""
    allowed = system_calls(["@default"])
    for words in unit.values["SystemCallFilter"]:
        if words.startswith("~"):
            allowed -= system_calls(words[1:].split())
        else:
            allowed |= system_calls(words.split())
    otherwise = unit.values.get("SystemCallErrorNumber")
    listed = seccomp.SyscallFilter(seccomp.ERRNO(getattr(errno, otherwise[0])) if otherwise else seccomp.KILL_PROCESS)
    for name in sorted(allowed):
        # (a name of another architecture is unknown here)
        with contextlib.suppress(RuntimeError):
            listed.add_rule(seccomp.ALLOW, name)
    used = seccomp.SyscallFilter(seccomp.ALLOW)
    families = {getattr(socket, name).value for name in unit.one("RestrictAddressFamilies").split()}
    for family in set(range(46)) - families:
        used.add_rule(seccomp.ERRNO(errno.EAFNOSUPPORT), "socket", seccomp.Arg(0, seccomp.EQ, family))
    denied = seccomp.ERRNO(errno.EPERM)
    used.add_rule(denied, "mmap", seccomp.Arg(2, seccomp.MASKED_EQ, 6, 6))
    for name, place in (("mprotect", 2), ("pkey_mprotect", 2)):
        used.add_rule(denied, name, seccomp.Arg(place, seccomp.MASKED_EQ, 4, 4))
    for flag in _NAMESPACES:
        used.add_rule(denied, "clone", seccomp.Arg(0, seccomp.MASKED_EQ, flag, flag))
    used.add_rule(seccomp.ERRNO(errno.ENOSYS), "clone3")
    for name in ("unshare", "setns"):
        used.add_rule(denied, name)
    for policy in (1, 2, 6):
        used.add_rule(denied, "sched_setscheduler", seccomp.Arg(1, seccomp.EQ, policy))
    for bit in (0o4000, 0o2000):
        for name, place in (("chmod", 1), ("fchmod", 1), ("fchmodat", 2)):
            used.add_rule(denied, name, seccomp.Arg(place, seccomp.MASKED_EQ, bit, bit))
    used.add_rule(denied, "personality", seccomp.Arg(0, seccomp.NE, 0))
    return [used, listed]


def mount(*words):
    subprocess.run(["mount", *map(str, words)], check=True)


def shut_off(package, room):
    """Leaves in this mount namespace only what the unit allows: the package, the state, a fresh /tmp, and nothing else
    to write."""
    mount("--make-rprivate", "/")
    for name in ("state/feeds", "lib/cpe-service", "devices"):
        (room / name).mkdir(parents=True)
    mount("-t", "overlay", "overlay", "-o", f"lowerdir={package / 'usr'}:/usr", "/usr")
    mount("-t", "overlay", "overlay", "-o", f"lowerdir={room / 'lib'}:/var/lib", "/var/lib")
    mount("--bind", room / "state", STATE)
    for path in (STATE, STATE / "feeds"):
        os.chown(path, NOBODY, NOBODY)
        path.chmod(0o700)
    mount("-t", "tmpfs", "-o", "mode=755", "devices", room / "devices")
    for name in ("null", "zero", "full", "random", "urandom"):
        (room / "devices" / name).touch()
        mount("--bind", f"/dev/{name}", room / "devices" / name)
    mount("--rbind", room / "devices", "/dev")
    for path in ("/tmp", "/var/tmp"):
        mount("-t", "tmpfs", "-o", "mode=1777", "fresh", path)
    for path in ("/home", "/root"):
        mount("-t", "tmpfs", "-o", "mode=755,ro", "empty", path)
    run = subprocess.run(["findmnt", "--noheadings", "--raw", "--output", "TARGET"], capture_output=True, text=True, check=True)
    for target in dict.fromkeys(run.stdout.splitlines()):
        if target not in ("/tmp", "/var/tmp", str(STATE)) and not target.startswith(("/dev", "/proc")) and Path(target).exists():
            mount("-o", "remount,bind,ro", target)
    mount("-t", "proc", "-o", "ro,hidepid=invisible", "proc", "/proc")


def with_loopback():
    """Has this network namespace its own address."""
    with socket.socket(socket.AF_INET, socket.SOCK_DGRAM) as one:
        fcntl.ioctl(one, 0x8914, struct.pack("16sh", b"lo", 0x1 | 0x40))


def begun(unit, words):
    """A process with this command line, run as by the unit."""
    loaded = filters(unit)
    # (a container may have fewer)
    files = min(int(unit.values.get("LimitNOFILE", ["1024"])[0]), resource.getrlimit(resource.RLIMIT_NOFILE)[1])
    libc = ctypes.CDLL(None, use_errno=True)

    def before():
        resource.setrlimit(resource.RLIMIT_NOFILE, (files, files))
        for capability in range(64):
            libc.prctl(24, capability, 0, 0, 0)
        os.setgroups([])
        os.setresgid(NOBODY, NOBODY, NOBODY)
        os.setresuid(NOBODY, NOBODY, NOBODY)
        if libc.prctl(38, 1, 0, 0, 0):
            raise OSError(ctypes.get_errno(), "no_new_privs")
        for one in loaded:
            one.load()

    environment = {"PATH": "/usr/local/sbin:/usr/local/bin:/usr/sbin:/usr/bin:/sbin:/bin", "LANG": "C.UTF-8", **unit.environment()}
    how = {"stdout": subprocess.PIPE, "stderr": subprocess.STDOUT, "text": True, "cwd": "/", "preexec_fn": before, "env": environment}
    return subprocess.Popen(words, **how)


def asked(port, method, path, body=None):
    connection = http.client.HTTPConnection("127.0.0.1", port, timeout=PATIENCE)
    with contextlib.closing(connection):
        connection.request(method, path, body)
        answer = connection.getresponse()
        return answer.status, json.loads(answer.read())


def expect(what, found, wanted):
    if found != wanted:
        sys.exit(f"{what}: {found!r} in place of {wanted!r}")
    print(f"{what}: {found}")


def expect_in_time(what, ask, wanted):
    end = time.monotonic() + PATIENCE
    while (found := ask()) != wanted and time.monotonic() < end:
        time.sleep(0.2)
    expect(what, found, wanted)


def serves(service, feeds):
    """The service has the verdicts of a sample, and takes a feed from the folder that the timer looks at."""
    run = begun(service, service.words())
    try:
        said = run.stdout.readline()
        found = re.search(r":(\d+)/", said)
        if found is None:
            sys.exit(f"it doesn't start: {said}{run.stdout.read()}")
        port = int(found[1])
        for name in ("dictionary", "matches"):
            expect(name, asked(port, "POST", "/feeds", (SAMPLES / f"{name}.json").read_bytes())[0], 202)
        expect("a list before its advisories", asked(port, "PUT", "/machines/legacy-1", (SAMPLES / "legacy-1.txt").read_bytes())[0], 202)
        folder = STATE / "feeds"
        (folder / "advisories.json").write_bytes((SAMPLES / "advisories.json").read_bytes())
        os.chown(folder / "advisories.json", NOBODY, NOBODY)
        taking = begun(feeds, feeds.words())
        words, _ = taking.communicate(timeout=PATIENCE)
        expect("a feed from the folder", (taking.returncode, words), (0, "advisories.json: 21 of the advisories\n"))
        expect("the folder", sorted(one.name for one in folder.rglob("*.json")), ["advisories.json"])
        counts = lambda: asked(port, "GET", "/machines/legacy-1")[1]["counts"]  # noqa: E731
        expect_in_time("the verdicts", counts, {"TRUE": 4, "UNKNOWN": 1})
        expect("a certificate", asked(port, "GET", "/certificates/legacy-1/CVE-2024-98001")[0], 200)
        run.send_signal(signal.SIGTERM)
        rest, _ = run.communicate(timeout=PATIENCE)
        expect("the end, by a signal", (run.returncode, rest), (0, ""))
    finally:
        if run.poll() is None:
            run.kill()


def main():
    package, room = (Path(word).resolve() for word in sys.argv[1:])
    units = package / "usr" / "lib" / "systemd" / "system"
    service, feeds = Unit(units / "cpe-service.service"), Unit(units / "cpe-service-feeds.service")
    shut_off(package, room)
    with_loopback()
    for unit in (service, feeds):
        probe = begun(unit, ["/usr/bin/python3", "-c", PROBE])
        words, _ = probe.communicate(timeout=PATIENCE)
        expect("what a command of a unit may do", words, PROBED)
    serves(service, feeds)


if __name__ == "__main__":
    main()
