#!/usr/bin/env python3
"""Respells the names of Rattle's goals in the answers of a crate's functions.

In the name of a goal or a step a name of the source keeps its spelling (`returns-then-not-stmt_above`);
older answers have a dash for each underscore in it. `python3 tools/respell_goals.py CRATE..`
"""

import re
import sys
from pathlib import Path

ROOT = Path(__file__).resolve().parents[1]
# Names of the library that answers speak of.
LIBRARY = {"is_some", "is_none", "is_err", "is_ok", "is_empty", "extend_from_slice", "unwrap_or", "copy_from_slice", "to_le_bytes"}


def source_names(crate):
    names = set(LIBRARY)
    for path in crate.glob("src/**/*.rt"):
        names |= set(re.findall(r"\b[A-Za-z][A-Za-z0-9]*(?:_[A-Za-z0-9]+)+\b", path.read_text()))
    return sorted(names, key=len, reverse=True)


def main():
    for name in sys.argv[1:]:
        crate = ROOT / "crates" / name
        names = source_names(crate)
        for path in crate.glob("proofs/**/*.antt"):
            if path.name not in ("Answers.antt", "Invariants.antt", "Proof.antt"):
                continue
            lines = []
            for line in path.read_text().split("\n"):
                if not line.startswith("use "):
                    for n in names:
                        old = n.replace("_", "-")
                        line = re.sub(r"(?<![A-Za-z0-9_])" + re.escape(old) + r"(?![A-Za-z0-9_])", n, line)
                lines.append(line)
            path.write_text("\n".join(lines))


if __name__ == "__main__":
    main()
