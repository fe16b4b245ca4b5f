"""Tries changes of the sources on the prover, each in a copy of the project over what was kept of the unchanged crate. Used by try-edits and
weaken-statements. Needs python3 and the Rattle kit."""
import os
import re
import shutil
import subprocess
import tempfile
import threading

import sources

# rt refuses sources that no check reads, so the copies stand outside of the checkout; two calls at once do not meet
PLACE = tempfile.mkdtemp(prefix="figmorella-edits-")
# what a crate is made of; what rt keeps of it stands in out/: the library, and in incremental/ what earlier checks proved
PARTS = ("src", "specs", "proofs")


def run_rt(folder, *words):
    """What `rt` printed, and its exit status."""
    done = subprocess.run(["rt", *words], cwd=folder, env=dict(os.environ, LC_ALL="C"), stdin=subprocess.DEVNULL, stdout=subprocess.PIPE, stderr=subprocess.STDOUT)
    return done.stdout.decode("utf-8", "replace"), done.returncode


def prove(crates, jobs):
    """Proves the crates and those that they stand on in the checkout itself, and keeps the work there; what is proved already takes no time."""
    uses = sources.listed()
    everything = set(uses) == set().union(*map(reached, crates))
    for folder in ["."] if everything else [f"crates/{crate}" for crate in crates]:
        text, status = run_rt(os.path.join(sources.ROOT, folder), "all", "check", "--jobs", str(jobs))
        if status != 0:
            raise SystemExit(f"not proved without a change:\n{text}")


def reached(crate):
    """The crate and the crates of the project that it stands on."""
    uses = sources.listed()
    return set(sources.steps_from({crate}, {name: [d for d in uses[name] if d in uses] for name in uses}))


def lowest_first(crates):
    return sorted(crates, key=lambda crate: len(reached(crate)))


def proved_anew(edit):
    """The crates below the edit's own that are not the same with it: those that it changes, and those that stand on them."""
    changed = edit.crates_changed()
    return {crate for crate in reached(edit.crate) if reached(crate) & changed} - {edit.crate} if changed - {edit.crate} else set()


def linked(one, other):
    """A file of out/ gets a second name: rt replaces such a file, and never writes into it."""
    try:
        os.link(one, other)
    except OSError:
        shutil.copy2(one, other)
    return other


class Copy:
    """A copy of the project's crates, with the proved libraries of the checkout."""

    def __init__(self, name):
        self.root = os.path.join(PLACE, name)
        shutil.rmtree(self.root, ignore_errors=True)
        os.makedirs(self.root)
        for name in ("crates.txt", "HANDLES"):
            if os.path.isfile(os.path.join(sources.ROOT, name)):
                shutil.copy(os.path.join(sources.ROOT, name), self.root)
        for crate in sources.listed():
            for part in PARTS:
                source = os.path.join(sources.ROOT, "crates", crate, part)
                if os.path.isdir(source):
                    shutil.copytree(source, self.folder(crate, part))
            self.put_library(crate)

    def folder(self, crate, *parts):
        return os.path.join(self.root, "crates", crate, *parts)

    def put_library(self, crate):
        """Puts the proved library there, as it stands in the checkout."""
        library, proved = self.folder(crate, "out", "rlib"), os.path.join(sources.ROOT, "crates", crate, "out", "rlib")
        shutil.rmtree(library, ignore_errors=True)
        if os.path.isdir(proved):
            shutil.copytree(proved, library, copy_function=linked)

    def apply(self, edit):
        for path, old, new in edit.changes:
            place = os.path.join(self.root, path)
            with open(place, encoding="utf-8") as file:
                text = file.read()
            with open(place, "w", encoding="utf-8") as file:
                file.write(text.replace(old, new))

    def take_back(self, edit):
        for path, _, _ in edit.changes:
            shutil.copy2(os.path.join(sources.ROOT, path), os.path.join(self.root, path))
        for crate in proved_anew(edit):
            self.put_library(crate)

    def run(self, verb, crate):
        """What rt says of a crate of the copy, with each place named from the repository's root, and its exit status."""
        text, status = run_rt(self.folder(crate), verb, "--jobs", "1")
        text = text.replace(self.root + "/", "")
        return re.sub(r"^((?:note: )?)(?:\./)?((?:src|specs|proofs)/\S*:)", rf"\1crates/{crate}/\2", text, flags=re.M), status


def snapshot(folder):
    """Each file below a folder with its size and time of change."""
    found = {}
    for at, _, names in os.walk(folder):
        for name in names:
            place = os.path.join(at, name)
            status = os.stat(place)
            found[os.path.relpath(place, folder)] = (status.st_size, status.st_mtime_ns)
    return found


class Warm:
    """What a check of an unchanged crate kept, and copies of it for the tries."""

    def __init__(self, crate):
        self.crate, self.place, self.files = crate, os.path.join(PLACE, "warm", crate), None
        self.lock = threading.Lock()

    def incremental(self, copy):
        return copy.folder(self.crate, "out", "incremental")

    def make(self, copy):
        """Checks the crate as it stands in the copy, over what the checkout kept of it."""
        kept, work = os.path.join(sources.ROOT, "crates", self.crate, "out", "incremental"), self.incremental(copy)
        shutil.rmtree(self.place, ignore_errors=True)
        shutil.rmtree(work, ignore_errors=True)
        if os.path.isdir(kept):
            shutil.copytree(kept, work)
        text, status = copy.run("check", self.crate)
        if status != 0:
            raise SystemExit(f"{self.crate} is not proved without an edit:\n{text}")
        shutil.copytree(work, self.place)
        self.files = snapshot(self.place)

    def put_back(self, copy):
        """Makes a copy's folder the unchanged crate's again."""
        work = self.incremental(copy)
        now = snapshot(work) if os.path.isdir(work) else {}
        for name in now.keys() - self.files.keys():
            os.remove(os.path.join(work, name))
        for name, status in self.files.items():
            if now.get(name) != status:
                os.makedirs(os.path.dirname(os.path.join(work, name)), exist_ok=True)
                # a new file, since rt may have a second name for the one that is there
                shutil.copy2(os.path.join(self.place, name), os.path.join(work, name) + ".new")
                os.replace(os.path.join(work, name) + ".new", os.path.join(work, name))


def said_of(copy, crate, below):
    """What rt says of a crate, and its exit status, once the crates below it that are not the same any more are proved anew."""
    said = ""
    for other in lowest_first(below):
        text, status = copy.run("lib", other)
        said += text
        if status != 0:
            return said, status
    text, status = copy.run("check", crate)
    return said + text, status


def check(edits, copy, warm, logs, from_nothing=False):
    """What the prover says of the crate with these edits, and its exit status. What it printed is kept in the folder `logs`."""
    warm.put_back(copy)
    if from_nothing:
        shutil.rmtree(warm.incremental(copy))
        # else rt would begin with what another checkout kept
        os.makedirs(warm.incremental(copy))
    for edit in edits:
        copy.apply(edit)
    text, status = said_of(copy, warm.crate, set().union(*map(proved_anew, edits)))
    for edit in edits:
        copy.take_back(edit)
    for edit in edits:
        log = os.path.join(logs, edit.crate, edit.label)
        os.makedirs(os.path.dirname(log), exist_ok=True)
        with open(log, "w", encoding="utf-8") as file:
            file.write("".join(f"with {edit.name}\n" for edit in edits) + text)
    return text, status


def refused(text, status):
    """Whether the prover gave a verdict, and it is no. A library that is not built says so in another line."""
    return status == 1 and re.search(r"^logic=not-proved|^rattle build: nothing was built, since only a proved crate is built", text, re.M)


def proved(text, status):
    return status == 0 and "\nlogic=proved" in text
