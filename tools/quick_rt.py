"""Runs the toolchain's rt with a sum of each crate's sources that is made once: python3 quick_rt.py RT WORD..

rt knows by that sum what it proved. It makes the sum of a crate anew for each way by which other crates stand on it, and the
topmost crates stand on the lowest by some six thousand ways; that took minutes of each of their proofs. tools/build calls rt
in folders where nobody writes while it runs, so the sums stay what they are.
"""
import importlib.machinery
import importlib.util
import sys


def quick(path):
    """The program rt as a module, with its sums kept, if it makes them as it did when this was written."""
    loader = importlib.machinery.SourceFileLoader("rt", path)
    made = importlib.util.module_from_spec(importlib.util.spec_from_loader("rt", loader))
    loader.exec_module(made)
    crate = getattr(getattr(made, "rtlib", None), "Crate", None)
    kept, whole = {}, getattr(crate, "stamp", None)
    if whole is None:
        return made

    def stamp(self):
        if self.folder not in kept:
            kept[self.folder] = whole(self)
        return kept[self.folder]

    crate.stamp = stamp
    return made


if __name__ == "__main__":
    sys.dont_write_bytecode = True
    sys.argv = sys.argv[1:]
    sys.exit(quick(sys.argv[0]).main(sys.argv[1:]))
