#!/usr/bin/env python3
"""The toolchain's command `rt`, with the stamp of each crate made once.

    python3 -m tools.build.rt_once WORD..      (as `rt WORD..`, in a crate's folder)

The stamp of a crate holds those of the crates below it. `rt` makes it anew for each path through crates.txt, several times, which
takes minutes for the crates at the top. So no file of a crate may change while this runs.
"""
import functools
import sys

from tools import kit


def main() -> None:
    rt = kit.command(kit.folder())
    rt.rtlib.Crate.stamp = functools.lru_cache(maxsize=None)(rt.rtlib.Crate.stamp)
    sys.exit(rt.main(sys.argv[1:]))


main()
