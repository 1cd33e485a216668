"""Checks of the documents' examples: each command that is shown behind `$ ` gives what stands below it.

The blocks of a document are run one after another in a folder that has the launcher, `picture`, the files of
`examples/`, and that folder itself.
"""

import os
import re
import shutil
import subprocess
import sys
import tempfile

from cases import EXAMPLES, TESTS
from check import TIME_LIMIT, first_difference

TOP = os.path.dirname(TESTS)
DOCUMENTS = ("README.md", "docs/using.md")
# (without `rt`, so that the launcher never builds here)
PATH = f"{os.path.dirname(sys.executable)}:/usr/bin:/bin"


def document_checks():
    return [Document(name) for name in DOCUMENTS]


class Document:
    def __init__(self, path):
        self.path = path
        self.name = "examples_of_" + re.sub(r"\W", "_", path.lower().removesuffix(".md").replace("docs/", ""))

    def tried(self, _program):
        with open(f"{TOP}/{self.path}", encoding="utf-8") as file:
            calls = calls_of(file.read())
        if not calls:
            return ["it shows no command"]
        with tempfile.TemporaryDirectory(prefix="scadslice-") as room:
            furnish(room)
            return [f"{command}: {why}" for command, wanted in calls if (why := difference(room, command, wanted))]


def calls_of(text):
    """Each command of a block that begins with one, and what is shown below it."""
    blocks = re.findall(r"(?ms)^```\w*\n(\$ .*?)^```", text)
    return [tuple(call.split("\n", 1)) for block in blocks for call in re.split(r"(?m)^\$ ", block)[1:]]


def furnish(room):
    shutil.copytree(EXAMPLES, f"{room}/examples")
    for name in os.listdir(EXAMPLES):
        shutil.copy(f"{EXAMPLES}/{name}", f"{room}/{name}")
    for name in ("scadslice", "picture"):
        os.symlink(f"{TOP}/{name}", f"{room}/{name}")


def difference(room, command, wanted):
    """What differs between what is shown and what a command writes, standard error last."""
    how = {"cwd": room, "stdout": subprocess.PIPE, "stderr": subprocess.STDOUT, "stdin": subprocess.DEVNULL}
    how["env"] = {"PATH": PATH, "LANG": "C.UTF-8"}
    limited = ["timeout", str(TIME_LIMIT), "bash", "-c", command]
    ended = subprocess.run(limited, check=False, **how)
    return None if ended.stdout == wanted.encode() else first_difference(ended.stdout, wanted.encode())
