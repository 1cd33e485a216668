"""Holds the launcher's table of explanations to the documents and to the program's own names."""

import os
import re
import sys

TOP = os.path.dirname(os.path.dirname(os.path.realpath(__file__)))
sys.path.insert(0, f"{TOP}/explain")

import table  # noqa: E402 (it lies in the launcher's folder)

NUMBERED = re.compile(r"`(\d+) (\w+)`")


def check_explanations(checks, text_of, tables, differs):
    """Each name that the program answers by has its explanation, and there are no others."""
    language, formats = text_of("docs/language.md"), text_of("docs/formats.md")
    rows_of = lambda text, head: [row for rows in tables(text) for row in rows if head in row]
    hold = lambda what, found, wanted: checks.hold(
        f"explain/table.py, {what}", differs(as_list(found), as_list(wanted)))
    check_numbers(hold, rows_of, text_of, language, formats)
    check_settings(hold, rows_of(formats, "Key"), text_of("crates/scad_words/src/rows.rt"))
    check_names(hold, rows_of, language, text_of)
    check_commands(hold, rows_of, formats)
    still = re.search(r'split\("([^"]*)"', text_of("examples/still.awk"))
    hold("commands of examples/still.awk", table.STILL_COMMANDS, still[1].split() if still else [])
    heads = set(re.findall(r"(?m)^## (.*)", language))
    lost = [it for _, _, it in table.FAULTS.values() if it not in heads]
    checks.hold("explain/table.py, the chapters", lost and f"{', '.join(lost)} isn't in docs/language.md")


def as_list(found):
    """Entries as texts, whether they stand in a dictionary or not."""
    return sorted(f"{key} {value}" for key, value in found.items()) if isinstance(found, dict) else sorted(found)


def variants(text, name):
    """The variants of an enum of the program, by their numbers."""
    body = re.search(rf"(?ms)^pub enum {name} {{(.*?)^}}", text)
    return {int(number): it for it, number in re.findall(r"(?m)^    (\w+) = (\d+),", body[1] if body else "")}


def check_numbers(hold, rows_of, text_of, language, formats):
    names = lambda entries: {number: it[0] for number, it in entries.items()}
    numbered = lambda cells: {int(it[1]): it[2] for cell in cells if (it := NUMBERED.match(cell))}
    rust = lambda file, name: variants(text_of(f"crates/scad_fault/src/{file}.rt"), name)
    faults = numbered(row["Fault"] for row in rows_of(language, "Fault"))
    hold("faults of docs/language.md", names(table.FAULTS), faults)
    hold("faults of the program", names(table.FAULTS), rust("fault", "FaultKind"))
    plain = lambda cell: f"`{cell}`" if cell[:1].isdigit() else cell
    limits = {**numbered(row["Budget"] for row in rows_of(language, "Budget")),
              **numbered(plain(row["Budget"]) for row in rows_of(formats, "Budget"))}
    hold("budgets of the documents", names(table.BUDGETS), limits)
    hold("budgets of the program", names(table.BUDGETS), rust("budget", "BudgetKind"))
    said = re.search(r"The faults of settings are (.*?)\.", formats)
    told = {int(number): it for number, it in re.findall(r"(\d+) (\w+)", said[1] if said else "")}
    hold("faults of settings of docs/formats.md", names(table.SETTINGS_FAULTS), told)
    hold("faults of settings of the program", names(table.SETTINGS_FAULTS), rust("settings", "SetKind"))
    told = {int(row["Status"]): row["Name"] for row in rows_of(formats, "Status")}
    hold("statuses of docs/formats.md", names(table.STATUSES), told)
    codes = re.findall(r"Status::(\w+)(?:\(_\)| \{ \.\. \})? => (\d+),", text_of("crates/scad_fault/src/status.rt"))
    hold("statuses of the program", names(table.STATUSES), {int(number): it for it, number in codes})
    check_bad_files(hold, rows_of(formats, "Ends with"), text_of("crates/scad_fault/src/verdict.rt"))
    check_limits(hold, rows_of, language, formats)


def check_bad_files(hold, rows, code):
    """The refusals of files that are judged, by the two words with which their lines begin."""
    names = {key: it[0] for key, it in table.BAD_FILES.items()}
    said = {found[1]: found[2] for row in rows if (found := re.match(r"`((?:cli|gcode) \d) (\w+)", row["Last line"]))}
    hold("refused files of docs/formats.md", names, said)
    named = re.search(r"(?ms)fn name\(self\).*?^    \}$", code)
    hold("refused files of the program", names.values(), re.findall(r'=> "(\w+)"', named[0] if named else ""))


def check_limits(hold, rows_of, language, formats):
    """Each number of a limit's row in the documents stands in its explanation."""
    columns = [(language, "What may not be passed"), (formats, "Passed where")]
    for text, column in columns:
        for row in rows_of(text, column):
            number = int(re.search(r"\d+", row["Budget"])[0])
            limit = table.BUDGETS.get(number, ("", ""))[1]
            wanted = {it for it in re.findall(r"\d[\d,]*\d", row[column].split(";")[0])}
            hold(f"budget {number}", sorted(wanted - set(re.findall(r"\d[\d,]*\d", limit))), [])


def check_settings(hold, rows, code):
    number = lambda text: int(text.replace(",", "").replace("_", ""))
    of_docs = {}
    for row in rows:
        least, _, most = row["Range"].removeprefix("0, or ").partition(" to ")
        of_docs[row["Key"].strip("`")] = (row["Unit"], number(least), number(most), number(row["Default"]))
    hold("settings of docs/formats.md", {key: it[:4] for key, it in table.SETTINGS.items()}, of_docs)
    form = r"const (\w+): Row = Row \{\s*least: ([\d_]+),\s*most: ([\d_]+),\s*or_none: \w+,\s*default: ([\d_]+),"
    of_code = {key.lower(): tuple(map(number, values)) for key, *values in re.findall(form, code)}
    hold("settings of the program", {key: it[1:4] for key, it in table.SETTINGS.items()}, of_code)


def check_names(hold, rows_of, language, text_of):
    """The names of modules and functions, those that are left out too."""
    rows = lambda crate: dict(re.findall(r'name: "(\w+)",\s*id: (\w+)', text_of(f"crates/{crate}/src/name.rt")))
    modules, functions = rows("scad_modules"), rows("scad_builtin")
    kept = lambda names: {it for it, id in names.items() if id != "LEFT_OUT"}
    explained = {*table.MODULES, *table.FREE_MODULES}
    hold("modules of the program", explained, kept(modules))
    hold("functions of the program", table.FUNCTIONS.keys(), kept(functions))
    # (the grammar leaves out the first; the others are left out by a value of theirs)
    parsed, partly = {"include", "use", "function", "!", "^"}, {"linear_extrude", "rotate_extrude", "rotate", "hull"}
    left_out = {it for names in (modules, functions) for it, id in names.items() if id == "LEFT_OUT"}
    hold("left-out names of the program", table.LEFT_OUT.keys(), left_out | parsed | partly)
    cells = lambda head: [row[head].partition("by name")[0] for row in rows_of(language, head)]
    called = lambda head: {it for cell in cells(head) for it in re.findall(r"`(\w+)[`(]", cell)}
    hold("modules of docs/language.md", explained, called("Module") - {"if"})
    hold("functions of docs/language.md", table.FUNCTIONS.keys(), called("Function"))


def check_commands(hold, rows_of, formats):
    called = re.findall(r"(?m)^scadslice (\w+) (.*)$", formats.partition("## The settings")[0])
    hold("commands of docs/formats.md", {name: " ".join(names) for name, (names, _) in table.COMMANDS.items()},
         dict(called))
    options = [row["Option"].strip("`") for row in rows_of(formats, "Option")]
    hold("options of docs/formats.md", [f"{name} {value}" for name, (value, _) in table.OPTIONS.items()], options)
