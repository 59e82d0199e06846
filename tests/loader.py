"""The header include/pravisondo.h and the least loader, samples/loader.c, over the static library.

    python3 tests/loader.py          on x86-64, after `bash samples/library`

samples/loader builds the loader, and every warning is an error. Tried are the loader's sentence and status, each call
of the header from C, and the header alone in C++. What is expected was written by hand from documents 01 and 02.
"""

import pathlib
import platform
import shutil
import subprocess
import sys
import tempfile

ROOT = pathlib.Path(__file__).resolve().parent.parent
sys.dont_write_bytecode = True
sys.path.insert(0, str(ROOT / "sheets"))
from images import Sheet  # noqa: E402

LOADER = ROOT / "target/loader"
SCRIPT = ["bash", ROOT / "samples/loader"]
LIBRARY = ROOT / "target/staticlib/libexported.a"
FLAGS = ["-Wall", "-Wextra", "-Werror", "-pedantic", f"-I{ROOT}/include"]
PARTS = ["grammar", "tokens", "tree"]

# Each number that a loader with room can be given, by a sheet, and the loader's sentence for it.
SENTENCES = {
    "samples/october": "accepted: 79 nodes, the root's indentation is 1",
    "samples/october-joined": "accepted: 79 nodes, the root's indentation is 1",
    "samples/october-blocks": "accepted: 903 nodes, the root's indentation is 1",
    "sheets/deep-rows-5118": "accepted: 4084 nodes, the root's indentation is 4095",
    "samples/october-as-remarks": "refused (12): the columns do not fit the tree, they leave no indentation for node 5",
    "samples/october-tree-only": "refused (7): the tree does not fit the sheet at token 3",
    "sheets/starred-07-day-at-0": "accepted: 2 nodes, the root's indentation is 0",
    "sheets/input-greatest": "accepted: 4096 nodes, the root's indentation is 7",
    "sheets/production-left-side": "refused (1): the grammar image has a fault at byte 16",
    "sheets/token-column": "refused (2): the token image has a fault at byte 8",
    "sheets/tree-production": "refused (3): the tree image has a fault at byte 6",
    "sheets/starred-10-root-is-no-sheet": "refused (5): the tree has a node that does not belong there, node 0",
    "sheets/starred-11-hours-missing": "refused (6): the tree breaks off where it needs node 1",
    "sheets/starred-09-no-tokens": "refused (8): the sheet breaks off where the tree needs token 0",
    "sheets/hours-1022": "refused (9): the tree is too deep at node 3066",
    "sheets/starred-14-node-remains": "refused (10): the tree is complete and has a further node, node 2",
    "sheets/starred-13-token-remains": "refused (11): the tree is complete and the sheet goes on with token 1",
}
# A faulty file in the place of each image: the sentence, and the byte where the length is too little or too much.
FAULTS = {
    "grammar": ("refused (1): the grammar image has a fault at byte", 14),
    "tokens": ("refused (2): the token image has a fault at byte", 4),
    "tree": ("refused (3): the tree image has a fault at byte", 4),
}

# Sheet A of document 01, packed and checked from C. GRAMMAR stands for the bytes of its grammar image; 77 is a mark.
# `day` is a token image of a day alone, `root` a tree image of the root alone; `joined` has the item without a column.
CALLS = r"""
#include <stdio.h>
#include <string.h>
#include "pravisondo.h"

#define NONE PRAVISONDO_NO_UPPER_BOUND
#define EXPECT(call, number, place, length) expect(__LINE__, call, number, place, length)
#define SAME(list, expected) if (memcmp(list, expected, sizeof list)) failed = printf("line %d: %s\n", __LINE__, #list)

static const uint8_t grammar[] = {GRAMMAR}, zeros[100];
static const uint8_t day[] = {1, 0, 6, 0, 10, 0, 0, 0, 1, 0}, root[] = {1, 0, 6, 0, 8, 0, 0, 0};
static const uint16_t terminals[] = {0, 1, 2, 1}, columns[] = {1, 3, 5, 3}, far[] = {1, 3, 4096, 4096};
static const uint16_t joined[] = {1, 3, PRAVISONDO_NO_COLUMN, 3}, farthest[] = {1, PRAVISONDO_NO_COLUMN, 65534, 4096};
static const uint16_t nodes[] = {0, 1, 3, 4, 5, 1, 3, 5, 2};
static const uint32_t low_high[] = {1, 1, 3, 3, 3, 3, 0, 5, 0, NONE, 3, 3, 3, 3, 0, NONE, 0, NONE, 77};
static const uint32_t joined_low_high[] = {1, 1, 3, 3, 3, 3, 0, NONE, 0, NONE, 3, 3, 3, 3, 0, NONE, 0, NONE, 77};
static const uint32_t least[] = {1, 3, 3, 4, 4, 3, 3, 4, 3, 77};
static uint8_t tokens[23], tree[25];
static uint32_t sets[19], indentations[10];
static int failed;

static void expect(int line, uint64_t answer, unsigned number, unsigned place, unsigned length)
{
    unsigned n = pravisondo_number(answer), p = pravisondo_place(answer), l = pravisondo_length(answer);
    if (n != number || p != place || l != length)
        failed = printf("line %d: number %u, place %u, length %u\n", line, n, p, l);
}

static uint64_t check(size_t room, size_t indentations_room)
{
    return pravisondo_check(grammar, sizeof grammar, tokens, 22, tree, 24, sets, room, indentations, indentations_room);
}

static uint64_t derive(const uint8_t *its_tokens, size_t tokens_length, const uint8_t *its_tree, size_t tree_length)
{
    return pravisondo_derive(grammar, sizeof grammar, its_tokens, tokens_length, its_tree, tree_length);
}

int main(void)
{
    EXPECT(pravisondo_pack_tokens(terminals, 4, columns, 3, tokens, 23), PRAVISONDO_ENTRIES, 0, 0);
    EXPECT(pravisondo_pack_tokens(terminals, 4, far, 4, tokens, 23), PRAVISONDO_COLUMN, 2, 0);
    EXPECT(pravisondo_pack_tokens(terminals, 4, farthest, 4, tokens, 23), PRAVISONDO_COLUMN, 2, 0);
    EXPECT(pravisondo_pack_tokens(terminals, 4, columns, 4, tokens, 21), PRAVISONDO_NO_ROOM, 22, 0);
    SAME(tokens, zeros);
    EXPECT(pravisondo_pack_tree(nodes, 0, tree, 25), PRAVISONDO_ENTRIES, 0, 0);
    EXPECT(pravisondo_pack_tree(nodes, 9, tree, 23), PRAVISONDO_NO_ROOM, 24, 0);
    SAME(tree, zeros);
    tokens[22] = tree[24] = 77;
    EXPECT(pravisondo_pack_tokens(terminals, 4, columns, 4, tokens, 23), PRAVISONDO_ACCEPTED, 0, 22);
    SAME(tokens, "\4\0\6\0\26\0" "\0\0\1\0" "\1\0\3\0" "\2\0\5\0" "\1\0\3\0" "\115");
    EXPECT(pravisondo_pack_tree(nodes, 9, tree, 25), PRAVISONDO_ACCEPTED, 0, 24);
    SAME(tree, "\11\0\6\0\30\0" "\0\0\1\0\3\0\4\0\5\0\1\0\3\0\5\0\2\0" "\115");
    EXPECT(pravisondo_check_grammar(grammar, sizeof grammar), PRAVISONDO_ACCEPTED, 0, 0);
    EXPECT(pravisondo_check_grammar(grammar, 15), PRAVISONDO_GRAMMAR_IMAGE, 15, 0);
    EXPECT(pravisondo_check_tokens(tokens, 22, 3), PRAVISONDO_ACCEPTED, 0, 0);
    EXPECT(pravisondo_check_tokens(tokens, 22, 2), PRAVISONDO_TOKEN_IMAGE, 14, 0);
    EXPECT(pravisondo_check_tree(tree, 24, 6), PRAVISONDO_ACCEPTED, 0, 0);
    EXPECT(pravisondo_check_tree(tree, 24, 5), PRAVISONDO_TREE_IMAGE, 14, 0);
    EXPECT(check(17, 8), PRAVISONDO_NO_ROOM, 18, 0);
    EXPECT(check(18, 8), PRAVISONDO_NO_ROOM, 9, 0);
    SAME(sets, zeros);
    SAME(indentations, zeros);
    sets[18] = indentations[9] = 77;
    EXPECT(check(19, 10), PRAVISONDO_ACCEPTED, 0, 0);
    SAME(sets, low_high);
    SAME(indentations, least);
    EXPECT(derive(tokens, 22, tree, 24), PRAVISONDO_ACCEPTED, 0, 0);
    EXPECT(derive(tokens, 22, tree, 23), PRAVISONDO_TREE_IMAGE, 4, 0);
    EXPECT(derive(day, sizeof day, tree, 24), PRAVISONDO_TOKENS_END, 1, 0);
    EXPECT(derive(tokens, 22, root, sizeof root), PRAVISONDO_NODES_END, 1, 0);
    tokens[16] = 3; /* the item's column, which the check alone judges */
    EXPECT(derive(tokens, 22, tree, 24), PRAVISONDO_ACCEPTED, 0, 0);
    EXPECT(check(19, 10), PRAVISONDO_EMPTY_SET, 2, 0);
    EXPECT(pravisondo_pack_tokens(terminals, 4, joined, 4, tokens, 23), PRAVISONDO_ACCEPTED, 0, 22);
    SAME(tokens, "\4\0\6\0\26\0" "\0\0\1\0" "\1\0\3\0" "\2\0\377\377" "\1\0\3\0" "\115");
    EXPECT(pravisondo_check_tokens(tokens, 22, 3), PRAVISONDO_ACCEPTED, 0, 0);
    indentations[3] = 77;
    EXPECT(check(19, 10), PRAVISONDO_ACCEPTED, 0, 0);
    SAME(sets, joined_low_high);
    SAME(indentations, least);
    tokens[16] = 254; /* 65,534 */
    EXPECT(pravisondo_check_tokens(tokens, 22, 3), PRAVISONDO_TOKEN_IMAGE, 16, 0);
    EXPECT(check(19, 10), PRAVISONDO_TOKEN_IMAGE, 16, 0);
    return failed;
}
"""


def run(command, **options):
    """Standard output, standard error and status."""
    done = subprocess.run(command, stdout=subprocess.PIPE, stderr=subprocess.PIPE, timeout=60, **options)
    return done.stdout.decode(), done.stderr.decode(), done.returncode


def said(line):
    """What the loader gives with this sentence: the line on standard output, and the status."""
    return f"{line}\n", "", 0 if line.startswith("accepted") else 1


def unreadable(result, *names):
    """Whether this is status 2 with nothing on standard output and a message that has these words."""
    out, message, status = result
    return (out, status) == ("", 2) and message.endswith("\n") and all(str(name) in message for name in names)


def files_of(space, name):
    """The three images of a sheet as files, in the loader's order."""
    files = []
    for part, image in Sheet(ROOT / f"{name}.sheet").images().items():
        files.append(space / f"{name.replace('/', '-')}.{part}")
        files[-1].write_bytes(image)
    return files


def in_place_of(files, part, other):
    return [other if name == part else file for name, file in zip(PARTS, files)]


def sentences(space):
    for name, line in SENTENCES.items():
        yield name, run([LOADER, *files_of(space, name)]) == said(line)


def faulty_files(space):
    greatest = files_of(space, "sheets/input-greatest")
    for part, (line, length_field) in FAULTS.items():
        whole = greatest[PARTS.index(part)].read_bytes()
        contents = [("empty", b"", 0), ("one byte too long", whole + b"\0", length_field)]
        contents.append(("far too long", whole + bytes(100000), length_field))
        for what, content, byte in contents:
            file = space / "faulty"
            file.write_bytes(content)
            yield f"{part} {what}", run([LOADER, *in_place_of(greatest, part, file)]) == said(f"{line} {byte}")


def unreadable_files(space):
    good = files_of(space, "samples/october")
    for part in PARTS:
        for what, file in [("missing", space / "missing"), ("a folder", space)]:
            yield f"{part} {what}", unreadable(run([LOADER, *in_place_of(good, part, file)]), "cannot read", file)
    for words in ([], good[:1], good[:2], good + good[:1]):
        yield f"{len(words)} files", unreadable(run([LOADER, *words]), "usage")


def script(space):
    october, remarks = "samples/october", "samples/october-as-remarks"
    yield "samples/loader, a name", run([*SCRIPT, october], cwd=ROOT) == said(SENTENCES[october])
    yield "samples/loader, a name, refused", run([*SCRIPT, remarks], cwd=ROOT) == said(SENTENCES[remarks])
    names = [f"october.{part}" for part in PARTS]
    yield "samples/loader, three files", run([*SCRIPT, *names], cwd=ROOT / "samples") == said(SENTENCES[october])
    yield "samples/loader, no such name", unreadable(run([*SCRIPT, "missing"], cwd=space), "missing.grammar")
    yield "samples/loader, two files", unreadable(run([*SCRIPT, *names[:2]], cwd=space), "usage")


def header(space):
    grammar = ",".join(str(byte) for byte in (ROOT / "samples/october.grammar").read_bytes())
    source, program = space / "calls.c", space / "calls"
    source.write_text(CALLS.replace("GRAMMAR}", f"{grammar}}}").lstrip())
    result = run(["cc", "-std=c99", *FLAGS, "-o", program, source, LIBRARY])
    if result == ("", "", 0):
        result = run([program])
    print(result[0] + result[1], end="")
    yield "each call of the header from C", result == ("", "", 0)
    if shutil.which("c++") is None:
        print("left out: the header in C++, as there is no c++ here")
        return
    alone = run(["c++", "-fsyntax-only", *FLAGS, "-x", "c++", "-"], input=b'#include "pravisondo.h"\n')
    yield "the header alone in C++", alone == ("", "", 0)


def cases(space):
    built = run(SCRIPT)
    print(built[1], end="")
    yield "samples/loader builds without a warning", built == ("", "", 0)
    if built[2] == 0:
        for part in (sentences, faulty_files, unreadable_files, script, header):
            yield from part(space)


def main():
    if platform.machine() != "x86_64":
        print(f"loader left out, as the library links on x86-64 and this is {platform.machine()}: 0 passed, 0 failed")
        return
    passed = failed = 0
    with tempfile.TemporaryDirectory() as space:
        for name, good in cases(pathlib.Path(space)):
            passed, failed = passed + good, failed + (not good)
            print("ok" if good else "FAILED", name, flush=True)
    print(f"loader: {passed} passed, {failed} failed")
    sys.exit(failed > 0)


main()
