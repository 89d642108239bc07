"""What the tests take of the Rattle toolchain beyond its commands: its own `rt`, read as a module, so that a check here is one of rt's."""
import importlib.machinery
import importlib.util
import os
import shutil
import sys

TOP = os.path.dirname(os.path.dirname(os.path.abspath(__file__)))


def _load():
    found = shutil.which("rt")
    if found is None:
        sys.exit(f"{os.path.relpath(sys.argv[0], TOP)}: this machine has no rt, and nothing was tested: that is the machine's fault, not the project's")
    sys.dont_write_bytecode = True
    loader = importlib.machinery.SourceFileLoader("rt", os.path.realpath(found))
    made = importlib.util.module_from_spec(importlib.util.spec_from_loader("rt", loader))
    loader.exec_module(made)
    made.rtlib.guarded()
    return made


rt = _load()
_known = {}


def crate_of(name):
    """A crate by its name, as rt has it."""
    return rt.rtlib.Crate(os.path.join(TOP, "crates", name), TOP, _known)


def are_of_ci(crates):
    """Whether a plain `rt ci` has left the libraries of these crates here: it builds them of the contracts alone, and gives them no stamp."""
    return all(os.path.isdir(it.rlib) and not os.path.exists(os.path.join(it.folder, "out/rlib/stamp")) for it in crates)


def build(crates):
    """Builds libraries, lowest first, as `rt check` of a crate above them does; says whether all are there."""
    rt.share_work(False)
    for crate in crates:
        if crate.is_built():
            continue
        with open(os.devnull, "w", encoding="utf-8") as crate.out:
            if crate.build_rlib(["--jobs", str(rt.processors())], anew=False):
                print(f"the library {crate.name} did not build: `rt check` in its folder says why", file=sys.stderr)
                return False
    return True
