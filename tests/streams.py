"""What the program does where standard input cannot be read or standard output not written:
it ends, says so on standard error, and gives no false answer.

    python3 tests/streams.py COMMAND [WORDS...]
"""

import os
import signal
import subprocess
import sys
import tempfile
import time

ROOT = os.path.dirname(os.path.dirname(os.path.abspath(__file__)))
UNREADABLE = b"pravisondo: standard input cannot be read\n"
UNWRITABLE = b"pravisondo: standard output cannot be written\n"
MOST = 47133

# A program that nobody reads from is told so by its write, and not ended by the signal.
signal.signal(signal.SIGPIPE, signal.SIG_IGN)


def october():
    parts = ["grammar", "tokens", "tree"]
    return b"".join(open(f"{ROOT}/samples/october.{part}", "rb").read() for part in parts)


def run(command, **streams):
    """Standard output (where it is not lent), standard error and status."""
    streams.setdefault("stdout", subprocess.PIPE)
    done = subprocess.run(command, stderr=subprocess.PIPE, timeout=60, restore_signals=False, **streams)
    return done.stdout or b"", done.stderr, done.returncode


def closed_input(command):
    return run(command, preexec_fn=lambda: os.close(0)) == (b"", UNREADABLE, 0)


def write_only(command):
    with open(os.devnull, "wb") as device:
        return run(command, stdin=device) == (b"", UNREADABLE, 0)


def folder(command):
    with tempfile.TemporaryDirectory() as space:
        descriptor = os.open(space, os.O_RDONLY)
        result = run(command, stdin=descriptor)
        os.close(descriptor)
    return result == (b"", UNREADABLE, 0)


def closed_output(command):
    return run(command, input=october(), stdout=None, preexec_fn=lambda: os.close(1)) == (b"", UNWRITABLE, 0)


def read_only(command):
    with open(os.devnull, "rb") as device:
        return run(command, input=october(), stdout=device) == (b"", UNWRITABLE, 0)


def no_room(command):
    with open("/dev/full", "wb") as full:
        return run(command, input=october(), stdout=full) == (b"", UNWRITABLE, 0)


def nobody_reads(command):
    reader, writer = os.pipe()
    os.close(reader)
    result = run(command, input=october(), stdout=writer)
    os.close(writer)
    return result == (b"", UNWRITABLE, 0)


def in_pieces(command):
    program = subprocess.Popen(command, stdin=subprocess.PIPE, stdout=subprocess.PIPE)
    delivery = october()
    for at, end in [(0, 5), (5, 150), (150, len(delivery))]:
        program.stdin.write(delivery[at:end])
        program.stdin.flush()
        time.sleep(0.1)
    whole = run(command, input=delivery)[0]
    out = program.communicate()[0]
    return out == whole and out.startswith(b"0 0\n") and out.count(b"\n") == 80


def too_long(command):
    """The tree image is too long, and no more than 47,133 bytes are taken from the input."""
    with tempfile.TemporaryFile() as file:
        file.write(october() + bytes(60000))
        file.flush()
        os.lseek(file.fileno(), 0, os.SEEK_SET)
        result = run(command, stdin=file)
        taken = os.lseek(file.fileno(), 0, os.SEEK_CUR)
    return result == (b"3 4\n", b"", 0) and taken == MOST


# Where an emulator runs the program, a closed descriptor's number may be one of the emulator's own.
NATIVE = [
    ("standard input is closed", closed_input),
    ("standard output is closed", closed_output),
]
CASES = [
    ("standard input is not open for reading", write_only),
    ("standard input is a folder", folder),
    ("standard output is not open for writing", read_only),
    ("standard output has no room", no_room),
    ("nobody reads standard output", nobody_reads),
    ("standard input comes in pieces", in_pieces),
    ("standard input is too long", too_long),
]


def main():
    command = sys.argv[1:]
    cases = CASES if len(command) > 1 else NATIVE + CASES
    failed = 0
    for name, case in cases:
        good = case(command)
        failed += not good
        print("ok" if good else "FAILED", name)
    print(f"streams: {len(cases) - failed} passed, {failed} failed")
    sys.exit(failed > 0)


main()
