"""What the scripts of this repository know of its crates and of the Rattle kit."""

import hashlib
import os
import re
import subprocess
import tempfile
import time

TOP = os.path.dirname(os.path.dirname(os.path.abspath(__file__)))
PARTS = ("src", "specs", "proofs")
# What the prover said on this machine, by the checksum of all that it was said of, and for how many days it stays unasked for.
KEPT = os.path.join(os.environ.get("XDG_CACHE_HOME") or os.path.expanduser("~/.cache"), "wipturay")
DAYS = 30


def kit():
    """The kit's folder."""
    page = subprocess.run(["rt", "doc"], capture_output=True, text=True, check=True).stdout.strip()
    return os.path.dirname(page)


class Crates:
    """The crates of a checkout, by its crates.txt."""

    def __init__(self, top=TOP):
        self.top, self.kit, self.uses, self.static, self.sums = top, kit(), {}, set(), {}
        with open(f"{top}/crates.txt", encoding="utf-8") as file:
            for line in file:
                found = re.match(r"\s*(\w+)(\s+staticlib)?\s*(?::|$)(.*)", line.partition("#")[0])
                if found:
                    self.uses[found[1]] = re.split(r"[\s,]+", found[3].strip()) if found[3].strip() else []
                    if found[2]:
                        self.static.add(found[1])

    def folder(self, name):
        return f"{self.top}/crates/{name}"

    def root(self, name):
        return "src/main.rt" if os.path.isfile(f"{self.folder(name)}/src/main.rt") else "src/lib.rt"

    def rlib(self, name):
        return f"{self.folder(name)}/out/rlib/{name}.rlib"

    def below(self, name):
        """The crates below this one, each after those that it uses."""
        found = []
        for one in self.uses[name]:
            if one in self.uses:
                found += [it for it in [*self.below(one), one] if it not in found]
        return found

    def words(self, name):
        """The words that `rattle check` and `rattle build` take for a crate, in its folder, over the built libraries below it."""
        words = ["--crate-name", name, self.root(name), "-L", f"dependency={self.kit}/rlibs"]
        for one in ["std", *self.uses[name]]:
            words += ["--extern", f"{one}={self.rlib(one) if one in self.uses else f'{self.kit}/rlibs/{one}.rlib'}"]
        for one in self.below(name):
            words += ["-L", f"dependency={os.path.dirname(self.rlib(one))}"]
        words += ["--antt-project", f"{self.kit}/rattle/logic/antt-project.json", "--logic-built", f"{self.kit}/logic_built"]
        return words + (["--crate-type", "staticlib"] if name in self.static else [])

    def changed(self, *names):
        """When a source of one of these crates, or crates.txt, changed last."""
        last = os.stat(f"{self.top}/crates.txt").st_mtime
        for name in names:
            for part in PARTS:
                for at, _, files in os.walk(f"{self.folder(name)}/{part}"):
                    last = max(last, *(os.stat(it).st_mtime for it in [at, *(f"{at}/{file}" for file in files)]))
        return last

    def is_later(self, made, *names):
        """Whether a file or folder was made after the sources of these crates changed last."""
        return os.path.exists(made) and os.stat(made).st_mtime >= self.changed(*names)

    def left_by_ci(self, name):
        """Whether the libraries below the crate are those that `rt ci` proved here, which `rt lib` and `rt run` would prove anew."""
        below = self.below(name)
        stamps = [it for it in below if os.path.exists(f"{os.path.dirname(self.rlib(it))}/stamp")]
        return not stamps and all(self.is_later(self.rlib(it), it, *self.below(it)) for it in below)

    def key(self, name, *more):
        """The sum of all that a check of the crate stands on: the prover, the crate's files and those of the crates below it, and what else is given."""
        prover = os.stat(f"{self.kit}/bin/rattle")
        with open(f"{self.kit}/KIT-ID", encoding="utf-8") as file:
            found = [prover.st_size, prover.st_mtime_ns, file.read(), more]
        for one in [*self.below(name), name]:
            found.append((one, one in self.static, self.uses[one], self.texts(one)))
        return hashlib.sha256(repr(found).encode()).hexdigest()

    def texts(self, name):
        """A sum of the crate's files."""
        if name not in self.sums:
            sum = hashlib.sha256()
            for part in PARTS:
                for at, below, files in os.walk(f"{self.folder(name)}/{part}"):
                    below.sort()
                    for file in sorted(files):
                        with open(f"{at}/{file}", "rb") as it:
                            sum.update(repr((os.path.relpath(f"{at}/{file}", self.folder(name)), it.read())).encode())
            self.sums[name] = sum.hexdigest()
        return self.sums[name]


def said_of(key):
    """What is kept under the key, or None."""
    try:
        os.utime(f"{KEPT}/{key}")
        with open(f"{KEPT}/{key}", encoding="utf-8") as file:
            return file.read()
    except OSError:
        return None


def keep(key, said):
    """Keeps what was said, and removes what was long not asked for."""
    try:
        os.makedirs(KEPT, exist_ok=True)
        with tempfile.NamedTemporaryFile("w", dir=KEPT, delete=False, encoding="utf-8") as file:
            file.write(said)
        os.replace(file.name, f"{KEPT}/{key}")
        for it in os.scandir(KEPT):
            if time.time() - it.stat().st_mtime > DAYS * 86_400:
                os.remove(it.path)
    except OSError:
        pass
