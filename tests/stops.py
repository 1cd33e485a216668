"""Checks of runs that end early: signals, devices that fill up, and limits on files. What stands in the files then is
the front of what the whole run writes.
"""

import os
import signal
import subprocess
import tempfile
import time

from check import TIME_LIMIT, Check, FrontOf, first_difference
from plans import printed, report
from streams import WRITE_FAULT, outlines

# A square millimetre a metre high, and what is planned of it.
TALL = b"cube([1,1,1000]);"
LAYERS = 5000
MOMENTS = 20
SIGNALS = ("KILL", "TERM", "PIPE")
# A folder for the outputs that holds 64 KiB; what is there afterwards is copied out of it.
SMALL = """unshare --map-root-user --mount sh -c '
    mount -t tmpfs -o size=64k none full && "$@"; status=$?; cp full/* there; exit $status' sh "$@" """
LIMITED = 'ulimit -f 64; exec "$@"'


def stop_checks():
    stops = [StopCheck(f"stop_by_{name.lower()}_{which}", name, which) for name in SIGNALS for which in range(MOMENTS)]
    return [*stops, LimitCheck("stop_by_a_limit_on_files"), *(full_devices() if can_mount() else [])]


def can_mount():
    """Whether a small device can be made here: by root, or where users may have name spaces."""
    tried = ["unshare", "--map-root-user", "--mount", "sh", "-c", "mount -t tmpfs none /mnt"]
    try:
        return subprocess.run(tried, capture_output=True).returncode == 0
    except OSError:
        return False


def full_devices():
    """The device fills up in mid-file: of both outputs, or of one while the other has room."""
    full = lambda name, cli, gcode, **left: Check(
        f"full_device_{name}",
        words=[b"plan", b"m.scad", cli, gcode],
        status=5,
        report=WRITE_FAULT,
        given={"m.scad": TALL},
        folders=["full", "there"],
        left=left,
        shell=SMALL,
    )
    cli, gcode = FrontOf(outlines(1, LAYERS)), FrontOf(printed(LAYERS))
    return [
        full("of_both", b"full/o", b"full/p", **{"there/o": cli, "there/p": gcode}),
        full("of_outlines", b"full/o", b"p", **{"there/o": cli, "p": gcode}),
        full("of_a_program", b"o", b"full/p", **{"o": cli, "there/p": gcode}),
    ]


class StopCheck:
    """A signal once so many twentieths of the outlines are written. The files are fronts of the whole ones, and the
    report is empty, or whole behind whole files where the signal came between the report and the end; a run that was
    quicker, or that the signal doesn't end, is done as ever."""

    def __init__(self, name, by, moment):
        self.name, self.signal, self.moment = name, getattr(signal, f"SIG{by}"), moment

    def tried(self, program):
        return early_end(program, (0, -self.signal), self.stop)

    def stop(self, started, path):
        least = len(outlines(1, LAYERS)) * self.moment // MOMENTS
        while started.poll() is None and size_of(path) < least:
            time.sleep(0.0005)
        if started.poll() is None:
            started.send_signal(self.signal)


class LimitCheck:
    """The system ends a run whose file grows past the limit, where that signal isn't ignored."""

    def __init__(self, name):
        self.name = name

    def tried(self, program):
        return early_end(program, (-signal.SIGXFSZ,), lambda started, path: None, ["sh", "-c", LIMITED, "sh"])


def early_end(program, ends, stop, shell=()):
    """What differs after a run of `plan` by three workers that `stop` may have ended, with one of these statuses."""
    with tempfile.TemporaryDirectory(prefix="scadslice-") as room:
        with open(os.path.join(room, "m.scad"), "wb") as file:
            file.write(TALL)
        words = [*shell, program, "plan", "m.scad", "o.cli", "o.gcode", "--workers=3"]
        how = dict.fromkeys(("stdin", "stdout", "stderr"), subprocess.PIPE)
        started = subprocess.Popen(words, cwd=room, **how)
        stop(started, os.path.join(room, "o.cli"))
        try:
            told, errors = started.communicate(timeout=TIME_LIMIT)
        except subprocess.TimeoutExpired:
            started.kill()
            return [f"it hadn't ended after {TIME_LIMIT} seconds"]
        is_done = told == report(LAYERS)
        return [*end_differs(started.returncode, told, errors, ends), *files_differ(room, is_done)]


def end_differs(status, told, errors, ends):
    """The report is written last and in one piece, so a run that was ended has all of it or nothing."""
    if status not in ends:
        return [f"the status is {status}"]
    wanted = report(LAYERS) if status == 0 or told else b""
    why = [f"the report differs {first_difference(told, wanted)}"] if told != wanted else []
    return why + ["standard error isn't empty"] * bool(errors)


def files_differ(room, is_done):
    """A file that isn't there was not created yet; the printing program is created behind the outlines."""
    told = []
    for name, whole in (("o.cli", outlines(1, LAYERS)), ("o.gcode", printed(LAYERS))):
        path = os.path.join(room, name)
        found = b""
        if os.path.exists(path):
            with open(path, "rb") as file:
                found = file.read()
        if not whole.startswith(found):
            told.append(f"{name} has {len(found)} bytes that aren't a front")
        if is_done and found != whole:
            told.append(f"{name} isn't whole")
    return told


def size_of(path):
    try:
        return os.path.getsize(path)
    except OSError:
        return -1
