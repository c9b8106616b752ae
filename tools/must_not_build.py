#!/usr/bin/env python3
"""Tries the programs that must not build: each crates/NAME/must-not-build/*.edit is applied to a copy of the repository, and the compiler must refuse
the crate for the error that the edit names.

usage: python3 tools/must_not_build.py   at the top of the repository

An edit has the lines of a must-fail edit ('file: ', 'old: ', 'new: ') and before them 'error: CODE', the compiler's own code of the error. It is not
a must-fail edit, since what does not build never comes before the prover. The crate as it stands must build and pass its tests.
"""
import glob
import os
import re
import shutil
import subprocess
import sys
import tempfile


def tried(room, crate):
    """What the compiler and the tests of a crate say, without any proof, and whether all is well."""
    ran = subprocess.run(["rt", "try", "--test"], cwd=f"{room}/crates/{crate}", stdin=subprocess.DEVNULL, stdout=subprocess.PIPE, stderr=subprocess.STDOUT, text=True, errors="replace")
    return ran.stdout, ran.returncode == 0


def refused(room, crate, edit):
    """Why an edit does not show what it is to show, or None."""
    with open(edit, encoding="utf-8") as file:
        lines = re.fullmatch(r"error: (\S+)\nfile: (\S+)\nold: (.*)\nnew: (.*)\n?", file.read())
    if not lines:
        return "it has not the lines error, file, old and new"
    code, path, old, new = lines.groups()
    path = f"{room}/crates/{crate}/{path}"
    with open(path, encoding="utf-8") as file:
        text = file.read()
    if text.count(old) != 1:
        return f"its old text stands {text.count(old)} times in the file"
    with open(path, "w", encoding="utf-8") as file:
        file.write(text.replace(old, new))
    said, well = tried(room, crate)
    with open(path, "w", encoding="utf-8") as file:
        file.write(text)
    if well:
        return "it builds"
    errors = set(re.findall(r"error\[([\w-]+)\]", said))
    if errors != {code}:
        return f"it is refused for {', '.join(sorted(errors)) or 'no error with a code'}, and not for {code} alone: {said[-400:]}"
    return None


def main():
    edits = sorted(glob.glob("crates/*/must-not-build/*.edit"))
    failed = 0
    with tempfile.TemporaryDirectory(prefix="must-not-build-") as room:
        shutil.copytree("crates", f"{room}/crates", ignore=shutil.ignore_patterns("out"))
        shutil.copy("crates.txt", room)
        for crate in sorted({edit.split(os.sep)[1] for edit in edits}):
            said, well = tried(room, crate)
            if not well:
                print(f"must not build: {crate} itself does not build: {said[-400:]}")
                failed += 1
        for edit in edits:
            why = refused(room, edit.split(os.sep)[1], edit)
            failed += why is not None
            print(f"must not build: {edit}: {why or 'the compiler refuses it, as it must'}", flush=True)
    print(f"must not build: {len(edits)} programs, {failed} failures")
    return failed != 0 or not edits


sys.exit(main())
