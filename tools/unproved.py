"""Builds the program before any proof, once, and keeps it: .build/unproved/wampd.

`rt try` builds it, with checks, in a folder of its own, runs it, and removes it at its end. So it is run as a subscriber of a socket that stands
here, and while it waits there for an answer, the file that it runs is copied. What was kept is taken as long as it is of this tree and this kit
(tools/built.py). What `rt try` says goes to .build/unproved/log.
"""
import contextlib
import ctypes
import os
import shutil
import signal
import socket
import subprocess
import sys
import time

import built
from built import ROOT, UNPROVED as PROGRAM

HERE = os.path.dirname(PROGRAM)
LOG, ROOM = f"{HERE}/log", f"{HERE}/room"
LAST_LINES = 20
# How long `rt` may take to end what it started, in seconds.
PATIENCE = 20
SET_PDEATHSIG = 1
NOTE = "wampd: building the program, once, with nothing proved of it: one to seven minutes"


def stands():
    """Whether what was kept is of this tree, and of this kit, where there is one."""
    fault = built.fault_of(PROGRAM, False)
    # To ask rt which kit it is takes longer than all the rest: it is asked where it isn't the file that it was.
    return fault is None and (built.record_of(PROGRAM).get("rt") == which_rt() or built.fault_of(PROGRAM, False, built.kit()) is None)


def which_rt():
    """The file of the toolchain's command, its size, time and place on the disk; None where there is none."""
    path = shutil.which("rt")
    return path and [os.path.realpath(path), *(getattr(os.stat(path), it) for it in ("st_size", "st_mtime_ns", "st_ino"))]


def peer_files(client):
    """The files that the process at the other end of a connection runs: the program, which may have been started by a loader."""
    host, port = client.getpeername()
    place = f"{int.from_bytes(socket.inet_aton(host), sys.byteorder):08X}:{port:04X}"
    with open("/proc/net/tcp", encoding="ascii") as lines:
        sockets = [f"socket:[{it.split()[9]}]" for it in lines if it.split()[1] == place]
    for pid in filter(str.isdigit, os.listdir("/proc")):
        with contextlib.suppress(OSError):
            if any(os.readlink(f"/proc/{pid}/fd/{it}") in sockets for it in os.listdir(f"/proc/{pid}/fd")):
                with open(f"/proc/{pid}/maps", encoding="utf-8", errors="replace") as lines:
                    mapped = [it.rstrip("\n").split(maxsplit=5) for it in lines]
                return list(dict.fromkeys(it[5] for it in mapped if len(it) == 6 and "x" in it[1] and ".so" not in os.path.basename(it[5])))
    return []


def keep(client):
    """Keeps the program that the client is."""
    for file in filter(os.path.isfile, peer_files(client)):
        shutil.copyfile(file, f"{PROGRAM}.new")
        os.chmod(f"{PROGRAM}.new", 0o755)
        with contextlib.suppress(OSError, subprocess.TimeoutExpired):
            told = subprocess.run([f"{PROGRAM}.new", "--version"], stdin=subprocess.DEVNULL, capture_output=True, timeout=PATIENCE).stdout
            if told.startswith(b"wampd "):
                os.replace(f"{PROGRAM}.new", PROGRAM)
                return True
    return False


def is_in_front():
    """Whether we have a terminal for ourselves; behind `&` we share it with who types there."""
    try:
        return os.tcgetpgrp(sys.stderr.fileno()) == os.getpgrp()
    except OSError:
        return False


def say(begun):
    if is_in_front():
        line = f"{NOTE} {built.clock(time.time() - begun)}"
        print("\r\033[K" + line[: shutil.get_terminal_size().columns - 1], end="", file=sys.stderr, flush=True)


def start(port, log):
    """Starts `rt try`, out of reach of the terminal's Ctrl-C, since it ends everything below it when it is told once; and is told so if we are killed."""
    libc, parent = ctypes.CDLL(None), os.getpid()

    def ends_with_us():
        libc.prctl(SET_PDEATHSIG, signal.SIGTERM)
        if os.getppid() != parent:
            os._exit(1)

    words = ["rt", "try", "--", "subscribe", "--port", str(port), "a", "a"]
    how = {"cwd": f"{ROOT}/crates/{built.NAME}", "env": {**os.environ, "TMPDIR": ROOM}, "stdin": subprocess.DEVNULL, "stdout": log, "stderr": log}
    return subprocess.Popen(words, start_new_session=True, preexec_fn=ends_with_us, **how)


def end(tried):
    """Ends it and all that it started, and leaves nothing of it, whatever comes meanwhile."""
    before = signal.pthread_sigmask(signal.SIG_BLOCK, {signal.SIGINT, signal.SIGTERM, signal.SIGHUP})
    tried.terminate()
    try:
        tried.wait(PATIENCE)
    except subprocess.TimeoutExpired:
        tried.kill()
        tried.wait()
    shutil.rmtree(ROOM, ignore_errors=True)
    with contextlib.suppress(FileNotFoundError):
        os.remove(f"{PROGRAM}.new")
    if is_in_front():
        print("\r\033[K", end="", file=sys.stderr, flush=True)
    signal.pthread_sigmask(signal.SIG_SETMASK, before)


def build():
    """Builds it, and says whether it is kept."""
    shutil.rmtree(ROOM, ignore_errors=True)
    os.makedirs(ROOM)
    begun, is_kept = time.time(), False
    with socket.create_server(("127.0.0.1", 0)) as door, open(LOG, "wb") as log:
        door.settimeout(1)
        tried = start(door.getsockname()[1], log)
        try:
            while tried.poll() is None and not is_kept:
                say(begun)
                with contextlib.suppress(TimeoutError), door.accept()[0] as client:
                    is_kept = keep(client)
        finally:
            end(tried)
    return is_kept


def fail(why):
    print(f"wampd: the build failed: {why}; .build/unproved/log ends with:", file=sys.stderr)
    with open(LOG, encoding="utf-8", errors="replace") as it:
        print("".join(it.readlines()[-LAST_LINES:]), end="", file=sys.stderr, flush=True)
    return 1


def make():
    """Has the program stand, and gives the exit status: 0 where it does."""
    if stands():
        return 0
    by_kit = built.kit()
    if by_kit is None:
        print(built.NO_RT, file=sys.stderr)
        return 1
    built.stop_in_order()
    with built.alone(built.LOCK_UNPROVED, "./wampd builds the program, with nothing proved of it"):
        if stands():
            return 0
        if not is_in_front():
            print(NOTE, file=sys.stderr, flush=True)
        begun, sums = time.time(), built.sums()
        if not build():
            return fail("rt try didn't run the program")
        if built.sums() != sums:
            return fail("a file of crates/ changed meanwhile, so run it again")
        built.write_record(PROGRAM, proved=False, crates=sums, kit=by_kit, rt=which_rt(), seconds=round(time.time() - begun))
    return 0
