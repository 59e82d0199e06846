"""What the sources keep that no proof says.

    python3 tests/sources.py

- What people read who do not prove, the code with its contracts, the definitions and the desk's conditions, fits
  120 columns.
- A field is read by its byte in the crates of the images alone: all else reads images by a record's number.
- The number that stands for no column has its name once in the definitions and once in the code.
- The greatest indentation is a law: its number, 5,118, stands in no definition, contract, code or proof.
"""

import pathlib
import re
import sys

CRATES = pathlib.Path(__file__).resolve().parent.parent / "crates"
COLUMNS = 120
IMAGES = {"fields", "grammar_image", "token_image", "tree_image"}


def files(*patterns):
    """The files of each pattern, of which there must be some."""
    for pattern in patterns:
        paths = sorted(CRATES.glob(pattern))
        if not paths:
            sys.exit(f"sources: no file is called crates/{pattern}")
        yield from paths


def wide_lines():
    for path in files("*/src/**/*.rt", "*/specs/**/*.antt", "judge/proofs/Demands.antt"):
        for number, line in enumerate(path.read_text().splitlines(), 1):
            if len(line) > COLUMNS:
                yield f"{path.relative_to(CRATES)}:{number}: {len(line)} columns"


def readers_by_byte():
    for path in files("*/src/**/*.rt"):
        crate = path.relative_to(CRATES).parts[0]
        if crate not in IMAGES and re.search(r"\b(field_at|byte_at)\b", path.read_text()):
            yield f"{path.relative_to(CRATES)} reads an image by a byte"


def places(number, pattern):
    """How often a number stands in the files of a pattern, comments left out."""
    comment = "//" if pattern.endswith(".rt") else "--"
    lines = [line.split(comment)[0] for path in files(pattern) for line in path.read_text().splitlines()]
    return sum(len(re.findall(rf"\b{number}\b", line)) for line in lines)


def no_column():
    for pattern in ("*/src/**/*.rt", "*/specs/**/*.antt"):
        count = places(65535, pattern)
        if count != 1:
            yield f"65535 stands {count} times in crates/{pattern}"


def greatest_indentation():
    for pattern in ("*/src/**/*.rt", "*/specs/**/*.antt", "*/proofs/**/*.antt"):
        if places(5118, pattern):
            yield f"5118 stands in crates/{pattern}"


def main():
    passed = failed = 0
    for check in (wide_lines, readers_by_byte, no_column, greatest_indentation):
        found = list(check())
        print(*found, sep="\n", end="\n" if found else "")
        failed += bool(found)
        passed += not found
    print(f"sources: {passed} passed, {failed} failed")
    return 1 if failed else 0


if __name__ == "__main__":
    sys.exit(main())
