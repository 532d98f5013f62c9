#!/usr/bin/env python3
"""Shows which edits that must fail the tests of a crate notice too.

usage: python3 tools/try_edits.py TESTS CRATE..     at the top of the repository, as in: try_edits.py sheet_tests sheet

Each edit of crates/CRATE/must-fail is applied to a copy of what is committed, and the tests of crates/TESTS are run there without any proof
(`rt try --test`). A line for each edit says whether a test failed; the last line counts. Nothing in the repository changes.
"""

import glob
import os
import re
import subprocess
import sys
import tempfile


def apply(edit, crate):
    """Applies the edit and returns the files as they were."""
    before, path, old = {}, None, None
    with open(edit, encoding="utf-8") as f:
        lines = f.read().splitlines()
    for line in lines:
        word, _, text = line.partition(":")
        text = text.strip()
        if word == "file":
            path = os.path.join(crate, text)
            with open(path, encoding="utf-8") as f:
                before.setdefault(path, f.read())
        elif word == "old":
            old = text
        elif word == "new":
            with open(path, encoding="utf-8") as f:
                now = f.read()
            if now.count(old) != 1:
                sys.exit(f"{edit}: its old text does not stand exactly once")
            with open(path, "w", encoding="utf-8") as f:
                f.write(now.replace(old, text))
    return before


def main(argv):
    if len(argv) < 2:
        sys.exit(__doc__)
    tests, crates = argv[0], argv[1:]
    noticed = tried = 0
    with tempfile.TemporaryDirectory() as copy:
        subprocess.run(["git", "clone", "-q", ".", copy], check=True)
        for name in crates:
            crate = os.path.join(copy, "crates", name)
            for edit in sorted(glob.glob(os.path.join(crate, "must-fail", "*.edit"))):
                before = apply(edit, crate)
                ran = subprocess.run(["rt", "try", "--test"], cwd=os.path.join(copy, "crates", tests), capture_output=True, text=True)
                result = re.search(r"test result: (\w+)", ran.stdout + ran.stderr)
                said = {"FAILED": "noticed", "ok": "not noticed"}.get(result[1] if result else "", "did not run")
                tried, noticed = tried + 1, noticed + (said == "noticed")
                print(f"{name}/{os.path.basename(edit)}: {said}", flush=True)
                for path, text in before.items():
                    with open(path, "w", encoding="utf-8") as f:
                        f.write(text)
    print(f"{tests}: {noticed} of {tried} noticed")


if __name__ == "__main__":
    main(sys.argv[1:])
