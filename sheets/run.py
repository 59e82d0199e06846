"""Runs every sheet of sheets/ and samples/ through a program and compares what it prints with the sheet's answer.

    python3 sheets/run.py COMMAND [WORDS...]

COMMAND reads the three images one after another on standard input and prints as document 01 says. What is compared
was written by hand. Beside that, for each sheet: its choices satisfy all relations, what it calls none does not, and
the indentations of its answer are a choice; and the images that stand in samples/ are those of their sheets.
"""
import pathlib
import subprocess
import sys

sys.dont_write_bytecode = True
from images import Sheet, SheetError  # noqa: E402

SECONDS = 60
CUT = 60


def shown(lines, number):
    """A line for people: cut where it is long, and said where it is missing."""
    return repr(lines[number][:CUT]) if number < len(lines) else "nothing"


def difference(expected, printed):
    """The first line in which the two differ, or nothing."""
    for number in range(max(len(expected), len(printed))):
        if expected[number : number + 1] != printed[number : number + 1]:
            return [f"line {number + 1}: expected {shown(expected, number)}, printed {shown(printed, number)}"]
    return []


def run_faults(sheet, command):
    """What is wrong with what the program prints on the sheet's images."""
    given = b"".join(bytes(image) for image in sheet.images().values())
    ended = subprocess.run(command, input=given, stdout=subprocess.PIPE, timeout=SECONDS)
    faults = difference(sheet.answer + [""], ended.stdout.decode("utf-8", "replace").split("\n"))
    if ended.returncode < 0:
        faults.append(f"the program was ended by signal {-ended.returncode}")
    return faults


def choice_faults(sheet):
    """What is wrong with the sheet's own choices, and with the indentations of its answer."""
    faults = [f"no choice: {choice}" for choice in sheet.choices if not sheet.is_choice(choice)]
    faults += [f"a choice: {choice}" for choice in sheet.not_choices if sheet.is_choice(choice)]
    if sheet.answer[:1] == ["0 0"] and not sheet.is_choice([int(line.split()[3]) for line in sheet.answer[1:]]):
        faults.append("the indentations of the answer are no choice")
    return faults


def image_faults(sheet, path):
    """Which images beside a sample are not those of its sheet."""
    faults = []
    for name, image in sheet.images().items():
        file = path.with_suffix(f".{name}")
        if not file.is_file() or file.read_bytes() != image:
            faults.append(f"{file.name} is not what images.py makes of {path.name}")
    return faults


def faults_of(path, command):
    """Everything that is wrong with one sheet."""
    try:
        sheet = Sheet(path)
        faults = [] if sheet.answer else ["a sheet without an answer"]
        faults += choice_faults(sheet) + run_faults(sheet, command)
        return faults + (image_faults(sheet, path) if path.parent.name == "samples" else [])
    except (SheetError, OSError, subprocess.TimeoutExpired, StopIteration) as fault:
        return [str(fault) or "the tree does not derive the tokens"]


def main():
    if len(sys.argv) < 2:
        sys.exit("usage: python3 sheets/run.py COMMAND [WORDS...]")
    root = pathlib.Path(__file__).resolve().parent.parent
    paths = [path for folder in ("sheets", "samples") for path in sorted((root / folder).glob("*.sheet"))]
    failed = 0
    for path in paths:
        faults = faults_of(path, sys.argv[1:])
        name = f"{path.parent.name}/{path.stem}"
        print(f"FAILED {name}: {'; '.join(faults)}" if faults else f"ok {name}", flush=True)
        failed += 1 if faults else 0
    print(f"sheets: {len(paths) - failed} passed, {failed} failed")
    sys.exit(1 if failed or not paths else 0)


if __name__ == "__main__":
    main()
