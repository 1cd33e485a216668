"""The report's last line, which names what happened: read where it can be, or asked for again.

What the program answers is a function of its words and files, so `check` tells the same fault again.
"""

import os
import stat
import subprocess

from look import is_regular

# Seconds that the program may take when it is asked again, and the bytes of a report that are read.
TIME_LIMIT, MOST = 10, 8192
# Two names of a file that keeps nothing: names have to differ as texts.
NOWHERE = ["/dev/null", "/dev/./null"]


def last_line_of(job, program, settings=None):
    """The last line of `check` over the job's source, without its end, or None."""
    return asked(program, ["check"], [job.names.get("MODEL")], [], settings or job.settings)


def last_line_of_layers(job, program):
    """The same of the job's own command, with outputs that keep nothing."""
    outputs = NOWHERE[:len(job.names) - 1]
    return asked(program, [job.command, "--workers", job.workers], [job.names.get("MODEL")], outputs, job.settings)


def last_line_judged(job, program):
    """The same of `verify` over both files of the job."""
    return asked(program, ["verify"], list(job.names.values()), [], job.settings)


def asked(program, command, inputs, outputs, settings):
    """The last line of the report of a command, where inputs and settings are files that can be read again."""
    if not all(map(is_regular, inputs)) or (settings is not None and not is_regular(settings)):
        return None
    words = [program, *command, *([f"--settings={settings}"] if settings is not None else []), "--", *inputs]
    try:
        ended = subprocess.run([*words, *outputs], stdin=subprocess.DEVNULL, stdout=subprocess.PIPE,
                               stderr=subprocess.DEVNULL, timeout=TIME_LIMIT)
    except (OSError, subprocess.TimeoutExpired):
        return None
    return last_of(ended.stdout)


def last_of(report):
    return report.removesuffix(b"\n").rpartition(b"\n")[2]


def last_line_written():
    """The last line of standard output where that is a file, without its end, or None."""
    try:
        if not stat.S_ISREG(os.fstat(1).st_mode):
            return None
        with open("/proc/self/fd/1", "rb") as file:
            file.seek(max(0, os.fstat(1).st_size - MOST))
            return last_of(file.read(MOST))
    except OSError:
        return None
