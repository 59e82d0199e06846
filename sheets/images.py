"""Turns a readable sheet into the three images of document 01.

    python3 sheets/images.py FILE.sheet OUT      writes OUT.grammar, OUT.tokens and OUT.tree

A sheet is a list of statements, one a line. An indented line goes on with the statement above it, a line
that begins with # is a comment, and ( WORDS ) x N stands for the words N times, also inside another such group.

    grammar FILE                     the statements of that file, as if they stood here
    terminals NAME ...               numbered from 0, as are the nonterminals
    nonterminals NAME ...
    start NAME
    production N LEFT -> SYMBOL ...  a symbol is a name and, without a blank, its relation: = > >= or * (free)
    production N to M LEFT -> ...    the same production under each number from N to M
    tokens NAME COLUMN ...           the column - stands for no column
    text FILE                        the tokens of a text: a line's first word names the terminal, and the
                                     blanks before it are its column; the rest of the line is for people; a line
                                     that ends in a backslash is joined with the next, whose token has no column
    tree NUMBER ...                  the nodes' production numbers in preorder
    answer NUMBER PLACE              what the program has to print; below it, where it accepts, every node's line
      NODE LOW HIGH INDENTATION      as it is printed
      A to B by S: LOW HIGH INDENTATION    the lines of the nodes A, A + S, .. up to B; without "by S" of each node
                                     from A to B; a number that ends in + is one more at each further node
      of P: LOW HIGH INDENTATION     the lines of the nodes of production P in the tree, which is said above
    choice NUMBER ...                an indentation for each node; they satisfy all relations
    not-choice NUMBER ...            an indentation for each node; they do not
    set IMAGE BYTE VALUE             damage, done in order once the images are made: the field of 16 bits at a byte
    byte IMAGE BYTE VALUE            one byte
    cut IMAGE LENGTH                 only that many bytes are left
    add IMAGE COUNT                  that many zero bytes more

A name has no blank, is neither ( nor ), and does not end in a relation. FILE counts from the place of the file that names it.
"""
import math
import pathlib
import struct
import sys

RELATIONS = {">=": 2, "=": 0, ">": 1, "*": 3}
HOLDS = {0: lambda i, j: j == i, 1: lambda i, j: j > i, 2: lambda i, j: j >= i, 3: lambda i, j: True}
TERMINAL, NONTERMINAL = 0, 1
NO_COLUMN = 65535


class SheetError(Exception):
    """A file that is no sheet, with its place."""


def statements(path):
    """Each statement of a file and of those that it names: its file, its place, its first line's words, the lines below."""
    found = []
    for number, line in enumerate(path.read_text(encoding="utf-8").splitlines(), 1):
        if not line.strip() or line.lstrip().startswith("#"):
            continue
        if line[0] == " " and found:
            found[-1][3].append(line.strip())
        else:
            found.append((path, f"{path.name}, line {number}", line.split(), []))
    for statement in found:
        if statement[2][0] == "grammar":
            yield from statements(path.parent / statement[2][1])
        else:
            yield statement


def expanded(words):
    """The words with every group ( .. ) x N written out."""
    open_groups = [[]]
    rest = iter(words)
    for word in rest:
        if word == "(":
            open_groups.append([])
        elif word == ")":
            if next(rest) != "x":
                raise ValueError("a group without x N")
            group = open_groups.pop()
            open_groups[-1].extend(group * int(next(rest)))
        else:
            open_groups[-1].append(word)
    (all_words,) = open_groups
    return all_words


def grown(word, turn):
    """The word; where it ends in +, the number that is that many turns more."""
    return str(int(word[:-1]) + turn) if word.endswith("+") else word


def nodes_named(head, tree):
    """The nodes that the words before a colon name: A to B, A to B by S, or of P."""
    if head[0] == "of":
        return [node for node, production in enumerate(tree) if production == int(head[1])]
    return range(int(head[0]), int(head[2]) + 1, int(head[4]) if head[3:4] == ["by"] else 1)


def answer_lines(first, lines, tree):
    """The printed lines, in the order of the nodes. Every node from 0 up has exactly one."""
    nodes = {}
    for line in lines:
        if ":" not in line:
            nodes_of_line, words = [int(line.split()[0])], line.split()[1:]
        else:
            head, words = line.split(":")[0].split(), line.split(":")[1].split()
            nodes_of_line = nodes_named(head, tree)
        if len(words) != 3 or not nodes_of_line or any(node in nodes for node in nodes_of_line):
            raise ValueError(line)
        for turn, node in enumerate(nodes_of_line):
            nodes[node] = " ".join([str(node)] + [grown(word, turn) for word in words])
    if sorted(nodes) != list(range(len(nodes))):
        raise ValueError("a node without a line")
    return [first] + [nodes[node] for node in range(len(nodes))]


def text_tokens(text):
    """The first word of each line with its column, or with none where the line before ends in a backslash."""
    joined = False
    for line in text.splitlines():
        yield line.split()[0], NO_COLUMN if joined else len(line) - len(line.lstrip(" "))
        joined = line.endswith("\\")


def fields(*values):
    """Unsigned fields of 16 bits, low byte first."""
    return struct.pack(f"<{len(values)}H", *values)


class Sheet:
    """What one sheet says: the grammar, the tokens, the tree, the damage, and what has to come back."""

    def __init__(self, path):
        self.terminals, self.nonterminals, self.start = [], [], 0
        self.productions = []  # a left side and a row of (kind, relation, number)
        self.tokens = []  # (terminal, column)
        self.tree = []
        self.answer = []
        self.choices, self.not_choices = [], []
        self.damage = []
        for file, place, (keyword, *words), lines in statements(pathlib.Path(path)):
            try:
                self.say(file, keyword, words, lines)
            except (ValueError, IndexError, StopIteration) as fault:
                raise SheetError(f"{place}: {keyword}: {fault}") from fault

    def say(self, file, keyword, words, lines):
        """Takes one statement."""
        below = [word for line in lines for word in line.split()]
        if keyword in ("terminals", "nonterminals"):
            getattr(self, keyword).extend(words + below)
        elif keyword == "start":
            self.start = self.nonterminals.index(words[0])
        elif keyword == "production":
            self.say_production(words + below)
        elif keyword == "tokens":
            pairs = expanded(words + below)
            if len(pairs) % 2:
                raise ValueError("a name without its column")
            columns = [NO_COLUMN if word == "-" else int(word) for word in pairs[1::2]]
            self.tokens += [(self.terminals.index(name), column) for name, column in zip(pairs[::2], columns)]
        elif keyword == "text":
            text = (file.parent / words[0]).read_text(encoding="utf-8")
            self.tokens += [(self.terminals.index(name), column) for name, column in text_tokens(text)]
        elif keyword == "tree":
            self.tree += [int(word) for word in expanded(words + below)]
        elif keyword == "answer":
            self.answer = answer_lines(" ".join(words), lines, self.tree)
        elif keyword in ("choice", "not-choice"):
            (self.choices if keyword == "choice" else self.not_choices).append([int(word) for word in expanded(words + below)])
        elif keyword in ("set", "byte", "cut", "add") and words[0] in ("grammar", "tokens", "tree"):
            self.damage.append((keyword, words[0], [int(word) for word in words[1:]]))
        else:
            raise ValueError("no such statement")

    def say_production(self, words):
        """Takes N [to M] LEFT -> SYMBOL ..., where N is the next number."""
        arrow = words.index("->")
        head = words[:arrow]
        last = int(head[2]) if head[1] == "to" else int(head[0])
        if int(head[0]) != len(self.productions):
            raise ValueError(f"number {len(self.productions)} is due")
        production = (self.nonterminals.index(head[-1]), [self.symbol(word) for word in expanded(words[arrow + 1 :])])
        self.productions += [production] * (last + 1 - len(self.productions))

    def symbol(self, word):
        """The kind, relation and number of a symbol."""
        relation = next(sign for sign in RELATIONS if word.endswith(sign))
        name = word[: -len(relation)]
        if name in self.terminals:
            return (TERMINAL, RELATIONS[relation], self.terminals.index(name))
        return (NONTERMINAL, RELATIONS[relation], self.nonterminals.index(name))

    def images(self):
        """The grammar, token and tree image, with the damage done."""
        entries = [symbol for _, row in self.productions for symbol in row]
        symbols = 16 + 6 * len(self.productions)
        grammar = fields(len(self.terminals), len(self.nonterminals), self.start, len(self.productions), len(entries))
        grammar += fields(16, symbols, symbols + 4 * len(entries))
        first = 0
        for left, row in self.productions:
            grammar += fields(left, first, len(row))
            first += len(row)
        for kind, relation, number in entries:
            grammar += bytes([kind, relation]) + fields(number)
        tokens = fields(len(self.tokens), 6, 6 + 4 * len(self.tokens)) + b"".join(fields(*token) for token in self.tokens)
        tree = fields(len(self.tree), 6, 6 + 2 * len(self.tree)) + fields(*self.tree)
        images = {"grammar": bytearray(grammar), "tokens": bytearray(tokens), "tree": bytearray(tree)}
        for keyword, image, numbers in self.damage:
            if keyword == "set":
                struct.pack_into("<H", images[image], *numbers)
            elif keyword == "byte":
                images[image][numbers[0]] = numbers[1]
            elif keyword == "cut":
                del images[image][numbers[0] :]
            else:
                images[image] += bytes(numbers[0])
        return images

    def is_choice(self, numbers):
        """Whether these indentations, one a node, satisfy all relations: document 01's table, for a tree that derives the tokens.

        A token without a column carries infinity, which is above every whole number and equal to none.
        """
        if len(numbers) != len(self.tree):
            return False
        nodes = iter(zip(self.tree, numbers))
        columns = iter([math.inf if column == NO_COLUMN else column for _, column in self.tokens])
        production, i = next(nodes)
        due = [(i, symbol) for symbol in reversed(self.productions[production][1])]
        all_hold = True
        while due:
            i, (kind, relation, _) = due.pop()
            if kind == TERMINAL:
                j = next(columns)
            else:
                production, j = next(nodes)
                due += [(j, symbol) for symbol in reversed(self.productions[production][1])]
            all_hold = all_hold and HOLDS[relation](i, j)
        return all_hold


def main():
    if len(sys.argv) != 3:
        sys.exit("usage: python3 sheets/images.py FILE.sheet OUT")
    try:
        images = Sheet(sys.argv[1]).images()
    except (SheetError, OSError) as fault:
        sys.exit(f"images.py: {fault}")
    for name, image in images.items():
        pathlib.Path(f"{sys.argv[2]}.{name}").write_bytes(image)


if __name__ == "__main__":
    main()
