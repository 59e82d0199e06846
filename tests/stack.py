"""The deepest and the greatest trees in a small stack, as `ulimit -s` sets it.

    python3 tests/stack.py PROGRAM          on x86-64, after samples/loader has built target/loader

The program has to answer in 1 MiB, and the loader, whose lists are not on the stack, in what include/pravisondo.h says
is enough for a call.
"""

import pathlib
import platform
import re
import resource
import subprocess
import sys
import tempfile

ROOT = pathlib.Path(__file__).resolve().parent.parent
sys.dont_write_bytecode = True
sys.path.insert(0, str(ROOT / "sheets"))
from images import Sheet  # noqa: E402

PROGRAM_KIB = 1024
LOADER = ROOT / "target/loader"
SHEETS = ["hours-1021", "depth-1024", "indentation-5118", "deep-rows-4095", "deep-rows-5118", "deep-rows-of-8"]
SHEETS += ["no-column-deep-rows", "nodes-4096", "input-greatest"]


def loader_kib():
    header = (ROOT / "include/pravisondo.h").read_text()
    return int(re.search(r"A stack of (\d+) KiB is enough", header).group(1))


def run(command, kib, given=b""):
    """What the command prints with so much stack, and with no variables, which would take some of it."""
    size = kib * 1024
    limit = {"preexec_fn": lambda: resource.setrlimit(resource.RLIMIT_STACK, (size, size))}
    return subprocess.run(command, input=given, stdout=subprocess.PIPE, timeout=60, env={}, **limit).stdout.decode()


def cases(program, space):
    for name in SHEETS:
        sheet = Sheet(ROOT / f"sheets/{name}.sheet")
        files = []
        for part, image in sheet.images().items():
            files.append(space / part)
            files[-1].write_bytes(image)
        given = b"".join(file.read_bytes() for file in files)
        text = "\n".join(sheet.answer) + "\n"
        yield f"{name}, the program in {PROGRAM_KIB} KiB", run([program], PROGRAM_KIB, given) == text
        kib = loader_kib()
        root = sheet.answer[1].split()[3]
        line = f"accepted: {len(sheet.tree)} nodes, the root's indentation is {root}\n"
        yield f"{name}, the loader in {kib} KiB", run([LOADER, *files], kib) == line


def main():
    if platform.machine() != "x86_64":
        print(f"stack left out, as it is that of x86-64 and this is {platform.machine()}: 0 passed, 0 failed")
        return
    passed = failed = 0
    with tempfile.TemporaryDirectory() as space:
        for name, good in cases(sys.argv[1], pathlib.Path(space)):
            passed, failed = passed + good, failed + (not good)
            print("ok" if good else "FAILED", name, flush=True)
    print(f"stack: {passed} passed, {failed} failed")
    sys.exit(failed > 0)


main()
