"""golden.py REPO [--write] [--old] [NAME..]: the golden cases of `plan` and `sample` by scadref, with all stages.
Without --write it tells which cases change (what in: status, report, outlines, print). With --write it makes the files of
those cases anew, in the form that they have (whole, or their checksum). --old compares with stage first+octagon in place of it:
nothing must change then. A case that takes more than SECONDS is told as slow and left."""
import hashlib, os, signal, sys
sys.path.insert(0, os.environ["SCADREF"])
sys.setrecursionlimit(100000)
from scadref.answer import answer
from scadref.profile import profile_of
SECONDS = int(os.environ.get("SECONDS_A_CASE", "120"))
args = sys.argv[1:]
repo = args.pop(0)
write = "--write" in args
stage = "first+octagon" if "--old" in args else "first+octagon+hatches+hull+supports+depth+verify"
profile = profile_of(stage)
names = [a for a in args if not a.startswith("--")]
folder = os.path.join(repo, "tests/cases")
def content(path):
    return open(path, "rb").read() if os.path.exists(path) else None
class Slow(Exception): pass
def late(*_): raise Slow()
signal.signal(signal.SIGALRM, late)
changed, slow, same = [], [], 0
for name in names or sorted(os.listdir(folder)):
    d = os.path.join(folder, name)
    words = content(os.path.join(d, "words")).decode("utf-8", "surrogateescape").split("\n")[:-1]
    if not words or words[0] not in ("plan", "sample"):
        continue
    class Named(dict):
        def get(self, name, default=None):
            return dict.get(self, os.path.normpath(os.path.join("/run", name)).replace("/run/", "", 1) if name else name, default)
    files = Named({f: content(os.path.join(d, f)) for f in ("model.scad", "settings.toml") if os.path.exists(os.path.join(d, f))})
    signal.alarm(SECONDS)
    try:
        found = answer(words, files, profile)
    except Slow:
        slow.append(name); print("slow", name, flush=True); continue
    except Exception as error:
        slow.append(name); print("failed", name, type(error).__name__, error, flush=True); continue
    finally:
        signal.alarm(0)
    what = []
    def put(file, data):
        what.append(file)
        if write:
            open(os.path.join(d, file), "wb").write(data)
    if content(os.path.join(d, "report")) != found.report:
        put("report", found.report)
    old_status = content(os.path.join(d, "status"))
    if int(old_status or b"0") != found.status:
        put("status", b"%d\n" % found.status)
    for file, data in (("outlines.cli", found.cli), ("print.gcode", found.gcode)):
        whole, summed = content(os.path.join(d, file)), content(os.path.join(d, file + ".sha256"))
        if whole is not None:
            if whole != data: put(file, data)
        elif summed is not None:
            told = hashlib.sha256(data).hexdigest().encode() + b"  " + file.encode() + b"\n"
            if summed != told: put(file + ".sha256", told)
        elif data:
            put(file + " (new)", data) if not write else what.append("NEW " + file)
    if what:
        changed.append(name); print("changed", name, " ".join(what), flush=True)
    else:
        same += 1
print(f"{stage}: {len(changed)} changed, {same} same, {len(slow)} slow or failed", flush=True)
