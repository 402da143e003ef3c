#!/usr/bin/env python3
"""Brings the names of goals and steps, in the answers and invariants of functions, to the spelling that the check gives them.

usage: python3 tools/goal_names.py CRATE..      at the top of a checkout

A name of src/ keeps its underscores in such a name, where it once had dashes, and so do the words of the check's own, as in_default for
the arm of `_` and overflow_sub for a subtraction.
"""

import glob
import re
import sys

STD = {"copy_from_slice", "as_slice", "is_none", "is_some", "map_err", "split_at", "split_at_mut", "as_mut", "as_ref", "unwrap_or", "push_str", "to_string", "checked_add", "in_default", "in_ok", "in_err", "from_residual", "invariant_of", "overflow_sub", "overflow_add", "overflow_mul", "overflow_cast", "overflow_step", "overflow_shl", "overflow_shr", "offset_bounds", "slice_bounds", "nonzero_div", "nonzero_rem", "type_inv"}


def names():
    found = set(STD)
    for f in glob.glob("crates/*/src/**/*.rt", recursive=True):
        with open(f, encoding="utf-8") as it:
            found |= {w for w in re.findall(r"[A-Za-z_][A-Za-z0-9_]*", re.sub(r"//.*", "", it.read())) if "_" in w.strip("_")}
    return sorted(found, key=len, reverse=True)


def main():
    known = names()
    for c in sys.argv[1:]:
        for f in sorted(glob.glob(f"crates/{c}/proofs/*/**/*.antt", recursive=True)):
            with open(f, encoding="utf-8") as it:
                old = it.read()

            def turn(m):
                w = m[0]
                if "-" not in w:
                    return w
                for n in known:
                    w = re.sub(rf"(?<![A-Za-z0-9_]){re.escape(n.replace('_', '-'))}(?![A-Za-z0-9_])", n, w)
                return w

            new = re.sub(r"(?<![\w'])[A-Za-z_][\w'-]*", turn, old)
            if new != old:
                with open(f, "w", encoding="utf-8") as it:
                    it.write(new)
                print(f)
    return 0


if __name__ == "__main__":
    raise SystemExit(main())
