"""Faults and budgets of a source: the line, a mark under the place, what it means, and where to read on."""

import re

from look import content, shown, width_of
from table import BUDGETS, FAULTS, FREE_MODULES, FUNCTIONS, LEFT_OUT, MODULES
from words import hint

FAULT = re.compile(rb"fault (\d+) (\w+) at (\d+):(\d+)(?: (.*))?")
BUDGET = re.compile(rb"budget (\d+) (\w+)(?: at (\d+):(\d+))?(?: layer (\d+))?(?: count (\d+))?")
# What a mark goes under: a word, a number, a string, an operator of two signs, or one sign.
PIECE = re.compile(r"\$?[A-Za-z_]\w*|[\d.]+(?:[eE][+-]?\d+)?|\"(?:[^\"\\]|\\.)*\"|[=!<>]=|&&|\|\||.", re.ASCII)
# The columns of a line that are shown, and the lines of an assertion.
WIDTH, LINES = 100, 5
MARK = b"\xef\xbb\xbf"


def of_fault(last, name):
    """Lines on a fault of the source in the file of this name."""
    number, kind, line, column, about = last.groups()
    told, source = [], content(name)
    at = int(line), int(column)
    about = about.decode("utf-8", "replace") if about else ""
    told.append(f"{shown(name)}:{at[0]}:{at[1]}: {kind.decode()} {shown(about)}".rstrip())
    if source is not None:
        source = source.removeprefix(MARK)
        told += marked(source, *at, lines=LINES if kind == b"AssertFailed" else 1)
    _, means, chapter = FAULTS.get(int(number), ("", "this version of the launcher doesn't know it", ""))
    told += meaning(int(number), about, source or b"", at) or [means]
    chapter = "Functions" if int(number) == 7 and about in FUNCTIONS else chapter
    return told + [f"docs/language.md, \"{chapter}\""] * bool(chapter)


def of_budget(last, name, height):
    """Lines on a budget, with the layer's height in millimetres where it is known."""
    number, kind, line, column, layer, count = last.groups()
    _, limit, helps = BUDGETS.get(int(number), ("", "a limit was passed", ""))
    told, what = [], kind.decode()
    if line and (source := content(name)) is not None:
        told.append(f"{shown(name)}:{int(line)}:{int(column)}: {what}")
        told += marked(source.removeprefix(MARK), int(line), int(column))
    there = f"; here {int(count):,}" if count else ""
    there += f", in layer {int(layer)}" if layer else ""
    there += f", {(int(layer) + 0.5) * height:.3f} mm above the bed" if layer and height else ""
    told.append(f"{limit}{there}" if told else f"scadslice: {what}: {limit}{there}")
    told += [f"what helps: {helps}"] * bool(helps)
    return told + ["docs/formats.md, \"The report\"" if int(number) > 5 else
                   "docs/language.md, \"Faults and budgets, and what to do\""]


def marked(source, line, column, lines=1):
    """The line of a place with a mark under it, and with the lines behind it as many as there may be."""
    rows = source.split(b"\n")
    if not 1 <= line <= len(rows):
        return []
    row = rows[line - 1].removesuffix(b"\r")
    text, before = row.decode("utf-8", "replace"), row[:column - 1].decode("utf-8", "replace")
    first = before_line(rows, line) if not before.strip() and lines == 1 else []
    piece = PIECE.match(text[len(before):])
    length = len(piece[0]) if piece else 1
    start = max(0, len(before) + min(length, WIDTH // 2) - WIDTH + 10)
    seen, lead = text[start:start + WIDTH], before[start:]
    blanks = "".join("\t" if it == "\t" else " " * width_of(it) for it in shown(lead))
    number = f"{line:>5} | "
    told = [*first, number + shown(seen), f"      | {blanks}{'^' * max(1, min(length, WIDTH - len(lead)))}"]
    return told + later_lines(source, rows, line, column, lines)


def before_line(rows, line):
    """The last line with text before a place that stands first on its line: a fault often lies at its end."""
    for at in range(line - 1, max(0, line - 6), -1):
        if rows[at - 1].strip():
            return [f"{at:>5} | {shown(rows[at - 1].decode('utf-8', 'replace').rstrip())[:WIDTH]}"]
    return []


def later_lines(source, rows, line, column, lines):
    """The lines on which the parentheses that open at a place stand open, up to a number of lines."""
    if lines == 1:
        return []
    at = sum(len(it) + 1 for it in rows[:line - 1]) + column - 1
    depth, told = 0, []
    for found in re.finditer(rb"\"(?:[^\"\\]|\\.)*\"|[()\n;]", source[at:at + 4096]):
        depth += (found[0] == b"(") - (found[0] == b")")
        if found[0] != b"\n" and depth <= 0:
            break
        if found[0] == b"\n":
            line += 1
            told.append(f"{line:>5} | {shown(rows[line - 1].decode('utf-8', 'replace').rstrip())[:WIDTH]}")
    return told[:lines - 1]


def meaning(number, about, source, at):
    """What a fault with a name means; nothing where the table's sentence says it."""
    if number == 2:
        return syntax(source, at)
    if number == 4 and about in LEFT_OUT:
        return [f"`{about}`: {LEFT_OUT[about] if about in MODULES or about in FREE_MODULES else f'{FAULTS[4][1]}; {LEFT_OUT[about]}'}"]
    if number == 7 and (rule := {**FUNCTIONS, **MODULES}.get(about)):
        return [f"an argument is missing, of another kind, or out of its range: {rule}"]
    if number in (5, 6):
        return unknown(number, about, source)
    return []


def syntax(source, at):
    rows = source.split(b"\n")
    if at == (len(rows), len(rows[-1]) + 1) and source:
        open_ones = source.count(b"{") - source.count(b"}"), source.count(b"(") - source.count(b")")
        names = [f"{count} `{sign}`" for count, sign in zip(open_ones, "{(") if count > 0]
        behind = f"; without a partner: {' and '.join(names)}" if names else ", perhaps a `;`"
        return [f"the source ends here, and something is missing{behind}"]
    return []


def unknown(number, name, source):
    """What else bears the name of an unknown module or function, or what is like it."""
    what, other = ("module", "function") if number == 5 else ("function", "module")
    defined = lambda word: [it.decode() for it in re.findall(rb"\b%s\s+(\w+)" % word.encode(), source)]
    language = {"module": [*MODULES, *FREE_MODULES], "function": list(FUNCTIONS)}
    told = f"{FAULTS[number][1]}"
    if name in defined(what):
        told = f"the {what} `{name}` is defined inside another one, and is seen only there"
    elif name in defined(other) or name in language[other]:
        place = "an expression" if other == "function" else "a statement of its own"
        told = f"`{name}` is a {other}, which is called as {place}"
    return [told + hint(name, {*defined(what), *language[what]} - {name})]
