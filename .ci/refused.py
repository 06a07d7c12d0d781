"""Tries one edit of client code that the compiler must turn down.

An edit has five lines: the crate, the file in it, the text that stands there once, the text put in its place, and
the name of the error that the compiler must give. The edit is made on a copy of the repository, whose sources the
compiler reads before anything is proved; the repository itself is not touched.
"""

import re
import shutil
import subprocess
import sys
import tempfile
from pathlib import Path


def read_edit(path):
    edit = {}
    for line in path.read_text().splitlines():
        key, _, value = line.partition(": ")
        edit[key] = value.replace("\\n", "\n")
    return edit


def main():
    path = Path(sys.argv[1])
    edit = read_edit(path)
    with tempfile.TemporaryDirectory() as folder:
        copy = Path(folder)
        shutil.copy("crates.txt", copy)
        shutil.copytree("crates", copy / "crates", ignore=shutil.ignore_patterns("out"))
        source = copy / "crates" / edit["crate"] / edit["file"]
        text = source.read_text()
        if text.count(edit["old"]) != 1:
            print(f"refused {path.stem}: BAD EDIT: the old text stands {text.count(edit['old'])} times")
            return 1
        source.write_text(text.replace(edit["old"], edit["new"]))
        run = subprocess.run(["rt", "check"], cwd=copy / "crates" / edit["crate"], capture_output=True, text=True)
        errors = re.findall(r"error\[([a-z0-9-]+)\]", run.stdout + run.stderr)
    if errors and errors[0] == edit["error"] and run.returncode != 0:
        print(f"refused {path.stem}: turned down, as it must be ({errors[0]})")
        return 0
    print(f"refused {path.stem}: expected {edit['error']}, found {errors[:1]} with status {run.returncode}")
    return 1


sys.exit(main())
