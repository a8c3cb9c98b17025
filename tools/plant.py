"""Plants the bugs of tools/planted.txt one at a time, and says what refuses each.

    python3 tools/plant.py            the whole list
    python3 tools/plant.py CRATE..    the bugs in these crates

It works in a copy of the repository in a temporary folder, and proves each crate there once before its bugs. The proof refuses
a bug if `rt check` in the crate's folder does not prove the crate with it. Any other bug is shown to the tests and programs above
it, and survives if they pass. A bug that does not compile, or whose old text does not stand exactly once in its file, is an error
in the list.
"""

import pathlib
import shutil
import subprocess
import sys
import tempfile
import time

ROOT = pathlib.Path(__file__).resolve().parent.parent
LIST = ROOT / "tools" / "planted.txt"
KEYS = ("crate", "file", "old", "new")
# What can see a bug that the proof of its own crate does not: it proves the crates above it, and compares what is written.
TESTS = ["rt", "ci", "vectors", "chart", "pins", "splits"]
VERDICTS = ("proof", "tests", "SURVIVES")


def read_list():
    """The bugs: blocks of four lines, `crate:`, `file:`, `old:` and `new:`, with an empty line between. `#` begins a comment line.
    A `\\n` in a text is a line's end."""
    bugs, bug = [], {}
    for line in LIST.read_text(encoding="utf-8").splitlines() + [""]:
        if line.startswith("#"):
            continue
        if line:
            key, _, text = line.partition(":")
            bug[key] = text.removeprefix(" ").replace("\\n", "\n")
        elif bug:
            if tuple(bug) != KEYS:
                sys.exit(f"plant: a block has the lines {', '.join(bug)}, not {', '.join(KEYS)}")
            bugs.append(bug)
            bug = {}
    return bugs


def source_of(root, bug):
    return root / "crates" / bug["crate"] / bug["file"]


def check_list(bugs):
    """Ends the program at the first bug that cannot be planted."""
    for bug in bugs:
        found = source_of(ROOT, bug).read_text(encoding="utf-8").count(bug["old"])
        if found != 1 or bug["old"] == bug["new"]:
            sys.exit(f"plant: in {bug['crate']}/{bug['file']} this stands {found} times: {bug['old']!r}")
        for edit in (ROOT / "crates" / bug["crate"] / "must-fail").glob("*.edit"):
            lines = edit.read_text(encoding="utf-8").splitlines()
            if [f"file: {bug['file']}", f"old: {bug['old']}", f"new: {bug['new']}"] == lines:
                sys.exit(f"plant: {edit.relative_to(ROOT)} is the same bug")


def run(command, folder):
    """The exit status and the lines of a command."""
    done = subprocess.run(command, cwd=folder, stdout=subprocess.PIPE, stderr=subprocess.STDOUT, check=False)
    return done.returncode, done.stdout.decode("utf-8", "replace").splitlines()


def prove(root, crate):
    """Whether the crate in `root` is proved, and the lines of the check."""
    status, lines = run(["rt", "check"], root / "crates" / crate)
    return status == 0, lines


def judge(bug, root):
    """What refuses the bug that is planted in `root`, and a note."""
    proved, lines = prove(root, bug["crate"])
    if not proved:
        unproved = any(": not proved" in line or ": no proof: " in line for line in lines)
        compiles = not any(": error[" in line for line in lines)
        return ("proof", "") if unproved and compiles else ("ERROR", lines[-1] if lines else "")
    status, lines = run(TESTS, root)
    if status != 0:
        return "tests", lines[-1] if lines else ""
    return "SURVIVES", ""


def shown(bug):
    """The change on one line."""
    return " -> ".join(" ".join(bug[key].split()) or "(nothing)" for key in ("old", "new"))


def table(counts):
    print("\n| Crate | Planted | Refused by the proof | Only by tests | Surviving |\n| --- | ---: | ---: | ---: | ---: |")
    rows = list(counts.items()) + [("all", {v: sum(c[v] for c in counts.values()) for v in VERDICTS})]
    for crate, count in rows:
        print(f"| {crate} | {sum(count.values())} | " + " | ".join(str(count[v]) for v in VERDICTS) + " |")


def main():
    bugs = [b for b in read_list() if b["crate"] in sys.argv[1:] or len(sys.argv) == 1]
    check_list(bugs)
    counts, errors, begun = {}, 0, time.monotonic()
    with tempfile.TemporaryDirectory() as folder:
        root = pathlib.Path(folder) / "repository"
        shutil.copytree(ROOT, root, ignore=shutil.ignore_patterns(".git", "out"), symlinks=True)
        for bug in bugs:
            if bug["crate"] not in counts:
                counts[bug["crate"]] = dict.fromkeys(VERDICTS, 0)
                if not prove(root, bug["crate"])[0]:
                    sys.exit(f"plant: {bug['crate']} is not proved even without a bug")
            path, start = source_of(root, bug), time.monotonic()
            whole = path.read_text(encoding="utf-8")
            path.write_text(whole.replace(bug["old"], bug["new"]), encoding="utf-8")
            verdict, note = judge(bug, root)
            path.write_text(whole, encoding="utf-8")
            seconds = time.monotonic() - start
            print(f"{bug['crate']} {bug['file']}: {shown(bug)}: {verdict} ({seconds:.0f} s) {note}".rstrip(), flush=True)
            if verdict in VERDICTS:
                counts[bug["crate"]][verdict] += 1
            else:
                errors += 1
    table(counts)
    print(f"\n{len(bugs)} bugs, {errors} errors, {time.monotonic() - begun:.0f} s")
    sys.exit(1 if errors else 0)


if __name__ == "__main__":
    main()
