#!/usr/bin/env python3
"""stamp_libraries.py KIT REPOSITORY: has `rt run` take the libraries that `rt ci` has built in REPOSITORY.

`rt ci` leaves each library that it has proved, or that an earlier run on this machine has, without the stamp by which
`rt run` sees of which sources it was built; without one it would prove all of them again. This writes the stamps, in
the form of the tool's own part rtlib. It is right only while nothing in REPOSITORY has changed since `rt ci` passed.
"""
from __future__ import annotations

import functools
import os
import sys


def write_stamps(kit: str, repository: str) -> list[str]:
    """The names of the libraries that were not built."""
    sys.path.insert(0, os.path.join(kit, "bin"))
    sys.dont_write_bytecode = True
    import rtlib  # pylint: disable=import-error,import-outside-toplevel

    # (a stamp reads those of all crates below: each once)
    rtlib.Crate.stamp = functools.lru_cache(maxsize=None)(rtlib.Crate.stamp)
    os.chdir(repository)
    missing = []
    for crate in rtlib.crates_below(repository):
        if crate.is_program:
            continue
        if os.path.isdir(crate.rlib):
            with open(os.path.join(os.path.dirname(crate.rlib), "stamp"), "w", encoding="utf-8") as file:
                file.write(crate.stamp())
        else:
            missing.append(crate.name)
    return missing


def main() -> int:
    """Writes the stamps; says which libraries there are none of."""
    missing = write_stamps(sys.argv[1], os.path.realpath(sys.argv[2]))
    if missing:
        print("page: rt ci has left no library of " + " ".join(missing), file=sys.stderr)
    return 1 if missing else 0


if __name__ == "__main__":
    sys.exit(main())
