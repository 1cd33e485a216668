"""One run of the program in a folder of its own, and what differs from what must come of it."""

import hashlib
import os
import signal
import subprocess
import tempfile
from dataclasses import dataclass, field

# Seconds that a run may take.
TIME_LIMIT = 300

# The shell's line that starts the program where a check says nothing else.
PLAIN = 'exec "$@"'


class Exactly:
    """These bytes."""

    def __init__(self, wanted):
        self.wanted = wanted

    def difference(self, found):
        return None if found == self.wanted else first_difference(found, self.wanted)


class Checksum:
    """The bytes with this SHA-256 checksum."""

    def __init__(self, wanted):
        self.wanted = wanted

    def difference(self, found):
        if hashlib.sha256(found).hexdigest() == self.wanted:
            return None
        return f"{len(found)} bytes with another checksum"


class FrontOf:
    """Some of these bytes from the first on, and not all."""

    def __init__(self, whole):
        self.whole = whole

    def difference(self, found):
        if found and len(found) < len(self.whole) and self.whole.startswith(found):
            return None
        return f"{len(found)} bytes that aren't a part of the front of the wanted ones"


@dataclass
class Check:
    """What is given to the program, and what must come of it.

    `given` are the files before the run, and `left` are those after it that weren't given or have
    changed; no others may be there. The line `shell` starts the program, with `words` behind its name.
    """

    name: str
    words: list
    status: int = 0
    report: bytes = b""
    given: dict = field(default_factory=dict)
    folders: list = field(default_factory=list)
    left: dict = field(default_factory=dict)
    shell: str = PLAIN
    input: bytes = b""

    def tried(self, program):
        """What differs, a text each; none where all is as it must be."""
        return compared(self, run(self, program))


class Each:
    """Several checks under one name, each by what tells it apart; they are tried in turn."""

    def __init__(self, name, checks):
        self.name, self.checks = name, checks

    def tried(self, program):
        """What differs, with what tells the check apart before it."""
        return [f"{which}: {why}" for which, check in self.checks.items() for why in check.tried(program)]


@dataclass
class Outcome:
    status: int
    report: bytes
    errors: bytes
    left: dict


def run(check, program):
    """Runs the program in a fresh folder; its status is None past the time limit, or minus a signal."""
    with tempfile.TemporaryDirectory(prefix="scadslice-") as room:
        for name in check.folders:
            os.makedirs(os.path.join(room, name))
        for name, content in check.given.items():
            with open(os.path.join(room, name), "wb") as file:
                file.write(content)
        words = ["sh", "-c", check.shell, "sh", program, *check.words]
        how = dict.fromkeys(("stdin", "stdout", "stderr"), subprocess.PIPE)
        how["env"] = {"PATH": "/usr/local/bin:/usr/bin:/bin", "LANG": "C.UTF-8", "TMPDIR": room}
        started = subprocess.Popen(words, cwd=room, start_new_session=True, **how)
        try:
            report, errors = started.communicate(check.input, timeout=TIME_LIMIT)
            status = started.returncode
        except subprocess.TimeoutExpired:
            os.killpg(started.pid, signal.SIGKILL)
            report, errors = started.communicate()
            status = None
        return Outcome(status, report, errors, files_in(room))


def files_in(room):
    """The content of each file below the folder."""
    found = {}
    for folder, _, names in os.walk(room):
        for name in names:
            path = os.path.join(folder, name)
            with open(path, "rb") as file:
                found[os.path.relpath(path, room)] = file.read()
    return found


def compared(check, outcome):
    """What differs between the outcome and what the check wants."""
    told = []
    if outcome.status is None:
        told.append(f"it hadn't ended after {TIME_LIMIT} seconds")
    elif outcome.status < 0:
        told.append(f"it was stopped by signal {-outcome.status}")
    elif outcome.status != check.status:
        told.append(f"the status is {outcome.status}, not {check.status}")
    if outcome.report != check.report:
        told.append(f"the report differs {first_difference(outcome.report, check.report)}")
    if outcome.errors:
        told.append(f"standard error has {shown(outcome.errors)}")
    wanted = {name: Exactly(content) for name, content in check.given.items()} | check.left
    for name in sorted(wanted.keys() | outcome.left.keys()):
        if name not in outcome.left:
            told.append(f"{name} is missing")
        elif name not in wanted:
            told.append(f"{name} is there, and must not be")
        elif why := wanted[name].difference(outcome.left[name]):
            told.append(f"{name} differs: {why}")
    return told


def first_difference(found, wanted):
    """The first line that differs, both ways."""
    ours, theirs = found.split(b"\n"), wanted.split(b"\n")
    same = 0
    while same < min(len(ours), len(theirs)) and ours[same] == theirs[same]:
        same += 1
    at = lambda lines: shown(lines[same]) if same < len(lines) else "its end"
    return f"in line {same + 1}: {at(ours)} in place of {at(theirs)}"


def shown(text, most=120):
    """A text for a message, on one line."""
    told = ascii(text[:most].decode("utf-8", errors="backslashreplace"))
    return told + " .." * (len(text) > most)
