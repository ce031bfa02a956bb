"""history.csv: a row for each landing that was measured, with its commit, the kit, and the ratios to `xxd -p` of one run."""
import csv
import os
import subprocess
import sys

from measuring import HERE, TOP

PATH = os.path.join(HERE, "history.csv")
# The columns before the ratios.
LANDING = ("commit", "kit")


def said_by(*words):
    return subprocess.run(words, cwd=TOP, stdout=subprocess.PIPE, text=True, check=True).stdout.rstrip()


def kit():
    return said_by("rt", "version")


def here():
    """The commit and the kit that are measured. Stops if the sources are not those of the commit."""
    changed = said_by("git", "status", "--porcelain", "--untracked-files=no", "--", ".", ":!bench/history.csv")
    if changed:
        sys.exit(f"these are not the sources of a commit:\n{changed}")
    return {"commit": said_by("git", "rev-parse", "--short=12", "HEAD"), "kit": kit()}


def read(path):
    """The names of the columns and the rows, the oldest first."""
    with open(path, encoding="utf-8", newline="") as file:
        reader = csv.DictReader(file)
        return list(reader.fieldnames), list(reader)


def last(path):
    """The row of the last landing, empty if none is recorded."""
    return next(reversed(read(path)[1]), {})


def note(path, row):
    """Appends a row, which takes the place of one of the same commit. What was not measured before has a column at the end."""
    names, rows = read(path)
    names += [name for name in row if name not in names]
    with open(path + ".part", "w", encoding="utf-8", newline="") as file:
        writer = csv.DictWriter(file, names, restval="", lineterminator="\n")
        writer.writeheader()
        writer.writerows([it for it in rows if it["commit"] != row["commit"]] + [row])
    os.replace(path + ".part", path)
