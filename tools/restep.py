#!/usr/bin/env python3
"""Turns the names of goals and steps that this repository's proofs cite to the spelling that Rattle gives them today.

usage: python3 tools/restep.py CRATE ..      at the top of the repository, after tools/respell.py

A name from the source keeps its underscores (`put-operation` is `put_operation`), and so does a word of Rattle's (`in-ok-x` is `in_ok-x`).
"""

import glob
import re
import sys

MADE = ["in_ok", "in_err", "in_default", "invariant_of", "overflow_add", "overflow_sub", "overflow_mul", "overflow_shl", "overflow_shr",
        "overflow_cast", "overflow_step", "nonzero_div", "nonzero_rem", "slice_bounds", "offset_bounds", "from_residual", "shared_slice_known"]
LIBRARY = ["split_at", "copy_from_slice", "count_ones", "trailing_zeros", "is_some", "is_none", "is_ok", "is_err", "as_slice", "map_err",
           "try_from", "wrapping_add", "saturating_sub", "iter_mut"]


def main():
    for crate in sys.argv[1:]:
        words = set(MADE + LIBRARY)
        for path in glob.glob(f"crates/{crate}/src/**/*.rt", recursive=True):
            text = re.sub(r"//[^\n]*", "", open(path, encoding="utf-8").read())
            words.update(re.findall(r"\b[a-z][a-z0-9]*(?:_[a-z0-9]+)+\b", text))
        pairs = sorted(((w.replace("_", "-"), w) for w in words), key=lambda p: -len(p[0]))
        pattern = re.compile(r"(?<![\w])(" + "|".join(re.escape(a) for a, _ in pairs) + r")(?![\w])")
        turn = dict(pairs)
        for path in glob.glob(f"crates/{crate}/proofs/**/*.antt", recursive=True):
            if not re.search(r"/(Answers|Invariants)\.antt$", path):
                continue
            old = open(path, encoding="utf-8").read()
            goals = set(re.findall(r"goal\.(?:at\.)?([^\s(){}\[\],;.]+)", old))
            for names in re.findall(r"^use \S+\.Goals\.\{([^}]*)\}", old, re.M):
                goals.update(n.strip() for n in names.split(","))

            def one(m):
                word = m.group(0)
                before = old[m.start() - 1] if m.start() else "\n"
                line = old[old.rfind("\n", 0, m.start()) + 1 : m.start()]
                if before == "." or word in goals or (line.startswith("use ") and ".Goals.{" in line):
                    return pattern.sub(lambda k: turn[k.group(1)], word)
                return word

            new = re.sub(r"[^\s(){}\[\],;.`\"]+", one, old)
            if new != old:
                open(path, "w", encoding="utf-8").write(new)


main()
