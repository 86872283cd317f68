#!/usr/bin/env python3
"""Renames the crate check to member_check, after tools/respell.py, since today's kit has a library named check.

usage: python3 tools/rename_check.py    once, at the top of the repository
"""

import os
import re


def turned(path, *pairs):
    with open(path, encoding="utf-8") as it:
        text = it.read()
    new = text
    for old, to in pairs:
        new = re.sub(old, to, new)
    if new != text:
        with open(path, "w", encoding="utf-8") as it:
            it.write(new)


os.rename("crates/check", "crates/member_check")
turned("crates.txt", (r"\bcheck\b", "member_check"))
for folder, dirs, files in os.walk("crates"):
    dirs[:] = [d for d in dirs if d != "out"]
    for f in files:
        if f.endswith((".rt", ".antt")):
            turned(os.path.join(folder, f), (r"\bRattle\.check\.", "Rattle.member_check."), (r"^use check::", "use member_check::"), (r"\nuse check::", "\nuse member_check::"))
