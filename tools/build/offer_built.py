#!/usr/bin/env python3
"""offer_built.py

Makes what `./psi` has proved here known to the `rt` of other checkouts on this machine, which then
take these libraries instead of proving them again. `rt` notes by itself where its own commands left
work. `./psi` works in copies that it removes, so there is nothing to find of its work.

This calls functions of the toolchain that are not public. Where the toolchain has none of them, it
says so, and there is nothing to share either. It prints how many crates are made known.
"""

import os
import pathlib
import runpy
import shutil
import sys

TOP = pathlib.Path(__file__).resolve().parent.parent.parent


def main() -> int:
    sys.dont_write_bytecode = True
    try:
        rt = runpy.run_path(os.path.realpath(shutil.which("rt") or "rt"), run_name="rt_command")
        built = [it for it in rt["rtlib"].Crate(str(TOP / "crates/psi"), str(TOP), {}).below() if it.is_built()]
        for crate in built:
            rt["offer"](crate, crate.stamp())
    except (AttributeError, KeyError, OSError, TypeError) as fault:
        print(f"offer_built.py: this toolchain shares nothing: {fault}", file=sys.stderr)
        return 1
    print(f"{len(built)} crates are known to other checkouts")
    return 0


if __name__ == "__main__":
    sys.exit(main())
