"""The crates of the repository, as crates.txt and their folders have them, for the scripts beside this file."""
import pathlib

TOP = pathlib.Path(__file__).resolve().parent.parent


def crates():
    """Each crate with those of the repository that it stands on, those of lower rows too, in the order of crates.txt."""
    lines = [line.split(":") for line in (TOP / "crates.txt").read_text().splitlines() if ":" in line and not line.startswith("#")]
    direct = {name.split()[0]: names.split() for name, names in lines}
    below = {}

    def all_below(name):
        if name not in below:
            found = {low for low in direct[name] if low in direct}
            below[name] = found.union(*[all_below(low) for low in found])
        return below[name]

    return {name: [low for low in direct if low in all_below(name)] for name in direct}


def files_of(name):
    """The crate's code, definitions and proofs: the .rt and .antt files of its src/, specs/ and proofs/."""
    found = [path for part in ("src", "specs", "proofs") for path in (TOP / "crates" / name / part).rglob("*")]
    return sorted(path for path in found if path.suffix in (".rt", ".antt"))


def lines_of(name):
    """How many lines these files have."""
    return sum(len(path.read_text(errors="replace").splitlines()) for path in files_of(name))
