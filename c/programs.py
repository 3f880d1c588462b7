#!/usr/bin/env python3
"""Prints the programs that stand in the comments of wuleshomia.h, one after the other, as they stand there.

    programs.py        what follows each line that begins with 'A whole' and ends with ':', as far as it is indented
"""

from __future__ import annotations

import sys
from pathlib import Path

HEADER = Path(__file__).resolve().parent / "wuleshomia.h"
INDENT = " *     "


def programs(header: str) -> list[str]:
    found, lines = [], iter(header.splitlines())
    for line in lines:
        if not (line.startswith(" * A whole ") and line.endswith(":")):
            continue
        taken = []
        for inner in lines:
            if inner != " *" and not inner.startswith(INDENT):
                break
            taken.append(inner[len(INDENT) :])
        found.append("\n".join(taken).strip("\n"))
    return found


def main() -> int:
    found = programs(HEADER.read_text())
    print("\n\n".join(found))
    return 0 if len(found) == 3 else 1


if __name__ == "__main__":
    sys.exit(main())
