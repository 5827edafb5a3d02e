"""What a built program is made of: the record that stands beside it; and the locks of those who build.

A record, `wampd.record` beside the program `wampd`, has the program's sha256, a sum of the text of each crate that it stands on, the kit, whether
all of these crates were proved, and how long that took. tools/build and tools/gate write it beside crates/wampd/out/wampd once everything is
proved, tools/unproved.py beside the program in .build/unproved. A program that isn't as its record says is nobody's: nothing vouches for it.
"""
import contextlib
import fcntl
import hashlib
import json
import os
import re
import shutil
import signal
import subprocess
import sys
import time

ROOT = os.path.dirname(os.path.dirname(os.path.abspath(__file__)))
WORK = f"{ROOT}/.build"
NAME = "wampd"
PROVED, UNPROVED = f"{ROOT}/crates/{NAME}/out/{NAME}", f"{WORK}/unproved/{NAME}"
# Whoever writes or reads crates/*/out holds the first one. A build without proofs touches nothing of it, and waits for none.
LOCK, LOCK_UNPROVED = f"{WORK}/lock", f"{WORK}/unproved/lock"
NO_RT = "wampd: building it takes the toolchain's command rt, which isn't there; a release archive needs none (README.md)"


def crates_txt():
    """The lines of crates.txt: the crates, and the words behind each."""
    found = {}
    with open(f"{ROOT}/crates.txt", encoding="utf-8") as lines:
        for line in lines:
            head, colon, words = line.partition(":")
            if colon and not line.startswith("#"):
                found[head.split()[0]] = (head.split()[1:], words.split())
    return found


def uses():
    """The crates of crates.txt, and the crates that each uses."""
    lines = crates_txt()
    return {name: [it for it in words if it in lines] for name, (_, words) in lines.items()}


def below(crates, name):
    """All that a crate stands on, itself not."""
    found = set()
    for it in crates[name]:
        found |= {it} | below(crates, it)
    return found


def files_of(name):
    """The files that a crate is proved from, in a fixed order; not those that an editor hides beside them."""
    for part in ("src", "specs", "proofs"):
        for at, folders, files in os.walk(f"{ROOT}/crates/{name}/{part}"):
            folders.sort()
            yield from (f"{at}/{it}" for it in sorted(files) if not it.startswith(".") and not it.endswith("~"))


def content_of(path):
    with open(path, "rb") as it:
        return it.read()


def sums():
    """A sum of each crate that the program stands on, the lowest first: of its text, its line of crates.txt and HANDLES."""
    lines, crates, found = crates_txt(), uses(), {}
    handles = content_of(f"{ROOT}/HANDLES") if os.path.isfile(f"{ROOT}/HANDLES") else b""
    parts = below(crates, NAME) | {NAME}
    for name in (it for it in crates if it in parts):
        found[name] = hashlib.sha256(handles + repr(lines[name]).encode())
        for file in files_of(name):
            found[name].update(os.path.relpath(file, ROOT).encode() + b"\0" + content_of(file) + b"\0")
    return {name: it.hexdigest() for name, it in found.items()}


def kit():
    """What the toolchain says that it is; None where there is none."""
    if not shutil.which("rt"):
        return None
    ran = subprocess.run(["rt", "version"], capture_output=True, text=True, stdin=subprocess.DEVNULL)
    if ran.returncode != 0:
        sys.exit(f"wampd: rt version fails: {ran.stderr.strip()}")
    return ran.stdout.strip()


def record_of(program):
    """What the record beside a program says; empty where there is none, or none that can be read."""
    try:
        found = json.loads(content_of(f"{program}.record"))
    except (OSError, ValueError):
        return {}
    return found if isinstance(found, dict) else {}


def write_record(program, **more):
    """Writes the record of a program: its sha256, the day, and what else is known of it."""
    found = {"program": hashlib.sha256(content_of(program)).hexdigest(), "day": time.strftime("%Y-%m-%d"), **more}
    with open(f"{program}.record.new", "w", encoding="utf-8") as out:
        json.dump(found, out, indent=1)
        out.write("\n")
    os.replace(f"{program}.record.new", f"{program}.record")


def is_beside(program):
    return os.path.isfile(program) and os.access(program, os.X_OK)


def fault_of(program, is_proved, by_kit=None):
    """Why a program isn't one of this tree, proved or not, and made by this kit where one is named; None where it is."""
    name, record = os.path.relpath(program, ROOT), record_of(program)
    if not is_beside(program):
        return f"{name} isn't there"
    if not record:
        return f"no record of a proof stands beside {name}" if is_proved else f"no record stands beside {name}"
    if is_proved and record.get("proved") is not True:
        return f"the record beside {name} is of no proof"
    if record.get("program") != hashlib.sha256(content_of(program)).hexdigest():
        return f"{name} isn't the program that its record names"
    then, now = record.get("crates") or {}, sums()
    changed = [it for it in {**now, **then} if then.get(it) != now.get(it)]
    if changed:
        return f"changed since {name} was built: {some_of(changed)}"
    if by_kit is not None and record.get("kit") != by_kit:
        return f"{name} was built by {record.get('kit')}, and rt is {by_kit}"
    return None


def some_of(names):
    return ", ".join(names[:3]) + (f" and {len(names) - 3} more" if len(names) > 3 else "")


def clock(seconds):
    return f"{int(seconds) // 60}:{int(seconds) % 60:02}"


def stop_in_order():
    """A signal that ends us does so by an exception, so that nothing is left running."""
    for it in (signal.SIGTERM, signal.SIGHUP):
        if signal.getsignal(it) is signal.SIG_DFL:
            signal.signal(it, lambda number, _: sys.exit(128 + number))


def is_taken(lock):
    """Takes a lock, where nobody else holds it."""
    try:
        fcntl.flock(lock, fcntl.LOCK_EX | fcntl.LOCK_NB)
    except BlockingIOError:
        return False
    except OSError:
        pass  # Some file systems have no locks.
    return True


def wait_for(lock):
    """Says what the holder of a lock does, and waits for it. The holder writes that behind taking it, so it is given a second: until then there
    stands nothing, or the word of one who is gone."""
    until = time.monotonic() + 1
    while True:
        lock.seek(0)
        text = lock.read().strip()
        process = re.search(r"\(process (\d+),", text)
        if process and os.path.exists(f"/proc/{process[1]}") or time.monotonic() > until:
            break
        time.sleep(0.02)
        if is_taken(lock):
            return
    print(f"wampd: waiting until another command is done: {text or 'it builds'}", file=sys.stderr, flush=True)
    fcntl.flock(lock, fcntl.LOCK_EX)


@contextlib.contextmanager
def alone(path, what):
    """Holds a lock, and tells others what for. Where another command holds it, says what that does, and waits. However its holder ends, it is free."""
    os.makedirs(os.path.dirname(path), exist_ok=True)
    with open(path, "a+", encoding="utf-8") as lock:
        if not is_taken(lock):
            wait_for(lock)
        lock.truncate(0)
        lock.write(f"{what} (process {os.getpid()}, since {time.strftime('%H:%M')})")
        lock.flush()
        yield
        lock.truncate(0)
