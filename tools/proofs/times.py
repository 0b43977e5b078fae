#!/usr/bin/env python3
"""Where a crate's check spends its time, run in the repository's folder after a first `rt check --jobs 1` in crates/CRATE (one that found no
out/ there, nor what a check in another copy on this machine kept).

  times.py CRATE [N]    the N functions and law files that took longest, from when each module was written
"""
import collections
import pathlib
import re
import sys


def main(crate, most=25):
    files = sorted(pathlib.Path("crates", crate, "out/incremental").glob(f"*/Rattle-{crate}-*.oantt"), key=lambda f: f.stat().st_mtime_ns)
    spent = collections.Counter()
    for before, file in zip(files, files[1:]):
        name = file.name.removesuffix(".oantt").removeprefix(f"Rattle-{crate}-proofs.").removeprefix(f"Rattle-{crate}-specs.")
        name = re.sub(r"\.(Code|Statement|Kinds|Tie|Lts|Proof|Met|Reads|Goals|Given|Layout|Named|Symbol|Answers|Invariants|The[A-Z]\w*)(\..*)?$", "", name)
        spent[name] += (file.stat().st_mtime_ns - before.stat().st_mtime_ns) / 1e9
    print(f"{sum(spent.values()):.0f} s in all")
    for name, seconds in spent.most_common(int(most)):
        print(f"{seconds:7.1f}  {name}")


if __name__ == "__main__":
    if len(sys.argv) < 2:
        sys.exit(__doc__)
    main(*sys.argv[1:])
