#!/usr/bin/env python3
"""Tries the edits that the gate doesn't try, those of crates/NAME/edits.txt: each must be refused by the contracts of its crate.

    tests/edits.py                       those of all crates, lowest first
    tests/edits.py grid_core text_lines  those of some crates
    tests/edits.py --jobs 4 [NAME..]     four crates at a time
    tests/edits.py --alone [NAME..]      each by a check of its own
    tests/edits.py --keep DIR            the copy is made in DIR, and is used again
    tests/edits.py --stand [NAME..]      only checks, in a second, that each edit can be applied, those of must-fail/ too

A copy is made of the files that git tracks in crates/, of crates.txt and of HANDLES, as they are in the work tree. There each crate
is proved once, by `rt lib` if others use it and else by `rt check`, since an edit of a crate that isn't proved would be refused
whatever it does. What `rt check`, `rt lib` and `rt run` have built in the work tree is taken over, and saves these proofs. What
tools/build.py and `rt ci` have kept saves none: it is statements, without the proofs.

Then edits that change the body of one function are tried together, in a tree beside the copy: one `rt check --only` has one in each
function, and an edit is refused where its function isn't proved and an error is in that function. Bodies are not read by other
functions' proofs, which know a call by its contract alone, so this is what a check of each alone would say. All edits of which such a
check doesn't say that, and those that change a contract, a definition, a type, a constant or several functions, are tried alone: the
copy gets them in must-fail/, and `rt must-fail` gives their verdicts. So each verdict but `refused` is rt's own of that edit.
Kit 13f tries as many of these side by side as RT_JOBS says.

The copy takes up to 5 GB, and is removed at the end unless --keep names it. A DIR that is kept saves the proofs of the next run and
what was refused in this one, by the sums of the files that rt reads, so one that was stopped goes on. The last line counts the
verdicts: refused, NOT REFUSED (the crate is proved with the edit), BAD EDIT (it can't be applied, compiled or read), and NOT TRIED
(rt came to no verdict, or the crate isn't proved).

In edits.txt an edit is its name, a line `file: PATH` in the crate, and pairs of lines `old: TEXT` and `new: TEXT`; more lines
`file:` may follow with pairs of their own. An empty line ends it. Lines before a name that begin with # are comments. Each old
text occurs once in its file.

exit status:
  0  all were refused; with --stand, all can be applied
  1  some were not, or can't be
  2  the arguments are invalid, an edits.txt can't be read, or rt or git is missing; nothing was tried
  128 + N  stopped by signal N
"""
import argparse
import concurrent.futures
import contextlib
import fcntl
import hashlib
import os
import re
import shutil
import signal
import subprocess
import sys
import tempfile
import threading
from collections import Counter

import edit_rounds

TOP = os.path.dirname(os.path.dirname(os.path.abspath(__file__)))
COPIED = ("crates", "crates.txt", "HANDLES")
EDITS = "edits.txt"
# Is in each copy, so that no other folder is taken for one; and what was refused there.
MARK, REFUSED = ".copy-for-edits", ".refused-edits"
VERDICTS = ("refused", "NOT REFUSED", "BAD EDIT", "NOT TRIED")


class CallError(Exception):
    """The call can't be done; nothing was tried."""


def tracked():
    """The tracked files that rt reads, by their paths from the top; those that are deleted in the work tree are left out."""
    done = subprocess.run(["git", "ls-files", "-z", "--", *COPIED], cwd=TOP, capture_output=True, text=True, check=False)
    if done.returncode:
        raise CallError(f"git lists no files of {TOP}: {done.stderr.strip()}")
    return [path for path in done.stdout.split("\0") if path and os.path.isfile(os.path.join(TOP, path))]


def edits_in(text, path):
    """By name the edits of an edits.txt, each as rt reads it: its lines `file:`, `old:` and `new:`."""
    found, name = {}, None
    for number, line in enumerate(text.split("\n"), 1):
        if not line:
            name = None
        elif name is not None:
            if not line.startswith(("file: ", "old: ", "new:")):
                raise CallError(f"{path}:{number}: a line of an edit begins with `file: `, `old: ` or `new:`")
            found[name] += line + "\n"
        elif not line.startswith("#"):
            if not re.fullmatch("[a-z0-9_]+", line):
                raise CallError(f"{path}:{number}: the name of an edit is due, of small letters, digits and _")
            if line in found:
                raise CallError(f"{path}:{number}: the crate has another edit of this name")
            name = line
            found[name] = ""
    return found


def read_edits(crate):
    """By name the edits of the crate's edits.txt."""
    path = f"crates/{crate}/{EDITS}"
    with open(os.path.join(TOP, path), encoding="utf-8", newline="") as file:
        return edits_in(file.read(), path)


def edits_of(paths):
    """By crate its edits, for each tracked edits.txt."""
    found = re.compile(f"crates/([^/]+)/{EDITS}")
    return {crate[1]: read_edits(crate[1]) for crate in map(found.fullmatch, paths) if crate}


def stand(names):
    """The exit status: whether each edit of these crates can be applied. Each that can't is printed."""
    order = crates_in_order()
    check_names(names, order)
    count, bad = 0, 0
    for crate in names or order:
        folder = os.path.join(TOP, "crates", crate)
        edits = {f"{EDITS}: {name}": text for name, text in read_edits(crate).items()} if os.path.isfile(f"{folder}/{EDITS}") else {}
        gate = f"{folder}/must-fail"
        for name in sorted(os.listdir(gate)) if os.path.isdir(gate) else ():
            if name.endswith(".edit"):
                edits[f"must-fail/{name}"] = bytes_of(f"{gate}/{name}").decode()
        for name, text in edits.items():
            why = edit_rounds.applied(text, folder)[2]
            count, bad = count + 1, bad + (why is not None)
            if why:
                print(f"crates/{crate}/{name}: {why}")
    print(f"{count} edits, {bad} of which can't be applied")
    return 1 if bad else 0


def crates_in_order():
    """The names of crates.txt, lowest first."""
    with open(os.path.join(TOP, "crates.txt"), encoding="utf-8") as file:
        return [line.split(":")[0].split()[0] for line in file if ":" in line.partition("#")[0]]


def check_names(names, order):
    for name in names:
        if name not in order:
            raise CallError(f"there is no crate {name} in crates.txt")


def wanted(names, edits):
    """The crates to be tried, lowest first."""
    order = crates_in_order()
    check_names(names, order)
    for name in names:
        if name not in edits:
            raise CallError(f"{name} has no edits: git tracks no crates/{name}/{EDITS}")
    return [name for name in order if name in edits and (name in names or not names)]


def bytes_of(path):
    with open(path, "rb") as file:
        return file.read()


def renew(copy, paths):
    """Makes the copy what the tracked files are, without edits. What rt made there stays, and a file that hasn't changed isn't touched."""
    texts = {path: bytes_of(os.path.join(TOP, path)) for path in paths if not re.match(f"crates/[^/]+/(must-fail/|{EDITS}$)", path)}
    for folder, folders, names in os.walk(copy):
        inside = os.path.relpath(folder, copy)
        if re.fullmatch(r"crates/[^/]+", inside):
            folders[:] = [it for it in folders if it != "out"]
        for name in names:
            place = os.path.normpath(f"{inside}/{name}")
            if place not in (MARK, REFUSED) and place not in texts:
                os.remove(f"{folder}/{name}")
    for place, new in texts.items():
        old = os.path.join(copy, place)
        if not os.path.isfile(old) or bytes_of(old) != new:
            os.makedirs(os.path.dirname(old), exist_ok=True)
            with open(old, "wb") as file:
                file.write(new)


@contextlib.contextmanager
def copied(keep, paths):
    """The folder of the copy."""
    if not keep:
        with tempfile.TemporaryDirectory(prefix="knot-edits-") as copy:
            renew(copy, paths)
            yield copy
        return
    copy = os.path.realpath(keep)
    if os.path.commonpath([copy, os.path.realpath(TOP)]) in (copy, os.path.realpath(TOP)):
        raise CallError(f"{keep} is in this repository, or around it: the copy has to be elsewhere")
    if os.path.lexists(copy) and not os.path.isdir(copy):
        raise CallError(f"{keep} is no folder")
    if os.path.isdir(copy) and os.listdir(copy) and not os.path.isfile(os.path.join(copy, MARK)):
        raise CallError(f"{keep} has other files in it: name an empty folder, or one that this script has made")
    os.makedirs(copy, exist_ok=True)
    with open(os.path.join(copy, MARK), "w", encoding="utf-8") as mark:
        try:
            fcntl.flock(mark, fcntl.LOCK_EX | fcntl.LOCK_NB)
        except BlockingIOError:
            raise CallError(f"another run uses {keep}") from None
        renew(copy, paths)
        yield copy


class Runs:
    """The runs of rt, which end with this script, however that ends."""

    def __init__(self):
        self.lock, self.going, self.is_over = threading.Lock(), set(), False

    @contextlib.contextmanager
    def started(self, words, folder):
        """A run of rt whose output is read line by line."""
        with self.lock:
            if self.is_over:
                raise CallError("it was stopped")
            how = {"stdin": subprocess.DEVNULL, "stdout": subprocess.PIPE, "stderr": subprocess.STDOUT, "text": True, "errors": "replace"}
            run = subprocess.Popen(words, cwd=folder, **how)
            self.going.add(run)
        try:
            yield run
            run.wait()
            if self.is_over:
                raise CallError("it was stopped")
        finally:
            if run.poll() is None:
                run.terminate()
                run.wait()
            run.stdout.close()
            self.going.discard(run)

    def end(self):
        with self.lock:
            self.is_over = True
            for run in self.going:
                run.terminate()


class Kept:
    """What was refused over this copy, each by a sum of the edit and of all that rt reads for it."""

    def __init__(self, copy, version):
        self.copy, self.version, self.lock, self.sums, self.said = copy, version, threading.Lock(), {}, {}
        if os.path.isfile(f"{copy}/{REFUSED}"):
            with open(f"{copy}/{REFUSED}", encoding="utf-8") as file:
                self.said = {key: why for key, _, why in (line.rstrip("\n").partition(" ") for line in file)}

    def sum_of(self, crate):
        """A sum of the files of one crate."""
        if crate not in self.sums:
            found = hashlib.sha256()
            for part in edit_rounds.PARTS:
                for folder, folders, names in os.walk(f"{self.copy}/crates/{crate}/{part}"):
                    folders.sort()
                    for path in (f"{folder}/{name}" for name in sorted(names)):
                        found.update(repr((os.path.relpath(path, self.copy), bytes_of(path))).encode())
            self.sums[crate] = found.hexdigest()
        return self.sums[crate]

    def key(self, crate, edit):
        with self.lock:
            below = sorted(edit_rounds.crates_at_or_below(self.copy, crate).items())
            return hashlib.sha256(repr((self.version, crate, edit, [(line, self.sum_of(name)) for name, line in below])).encode()).hexdigest()

    def keep(self, crate, edit, why):
        key = self.key(crate, edit)
        with self.lock, open(f"{self.copy}/{REFUSED}", "a", encoding="utf-8") as file:
            file.write(f"{key} {why}\n")


class Trial:
    """How the edits of crates are tried over a copy."""

    def __init__(self, copy, edits, runs, jobs, is_alone):
        self.copy, self.edits, self.runs, self.is_alone, self.lock = copy, edits, runs, is_alone, threading.Lock()
        # (with one crate at a time rt chooses how many processors it takes)
        self.flags = ["--jobs", "1"] if jobs > 1 else []
        with runs.started(["rt", "version"], copy) as run:
            self.kept = Kept(copy, run.stdout.read())

    def say(self, text):
        with self.lock:
            print(text, flush=True)

    def take_over(self, crate):
        """Gives the copy the library that rt built of the crate in the work tree, with its proofs, and what it kept: rt looks whether they fit."""
        here, there = (f"{top}/crates/{crate}/out" for top in (TOP, self.copy))
        stamps = [bytes_of(f"{it}/rlib/stamp") if os.path.isfile(f"{it}/rlib/stamp") else b"" for it in (here, there)]
        if stamps[0] and stamps[0] != stamps[1]:
            shutil.rmtree(f"{there}/rlib", ignore_errors=True)
            shutil.copytree(f"{here}/rlib", f"{there}/rlib", copy_function=edit_rounds.link_or_copy)
        if os.path.isdir(f"{here}/incremental") and not os.path.isdir(f"{there}/incremental"):
            shutil.copytree(f"{here}/incremental", f"{there}/incremental")

    def refuse(self, found, crate, name, why):
        found[name] = "refused"
        self.kept.keep(crate, self.edits[crate][name], why)

    def said(self, verb, folder):
        """What rt says of the crate whose folder this is, or None where it isn't proved: then that is printed."""
        with self.runs.started(["rt", verb, *self.flags], folder) as run:
            said = run.stdout.read()
        if run.returncode:
            self.say(said.rstrip("\n"))
        return None if run.returncode else said.splitlines()

    def proved(self, crate, is_used, is_tried):
        """What rt says of a crate above crates that are proved, or None where it isn't.

        It is proved in a tree of its own, since rt lets two commands work side by side only if they share no crate; what is made goes to the copy.
        A library that was built before is not built again, and rt says nothing of it."""
        self.take_over(crate)
        own = f"{self.copy}/crates/{crate}"
        with edit_rounds.tree_for(self.copy, crate, ()) as folder:
            edit_rounds.move_made(own, folder)
            try:
                lines = self.said("lib", folder) if is_used else []
                if lines is not None and is_tried and not proved_functions(lines):
                    lines = self.said("check", folder)
            finally:
                edit_rounds.move_made(folder, own)
        return lines

    def together(self, crate, lines, found):
        """Tries together those edits of the crate that are left and that one body has, and gives the number of checks that took."""
        functions = proved_functions(lines)
        edits = {name: text for name, text in self.edits[crate].items() if found[name] != "refused"}
        places = {name: edit_rounds.place_of(text, f"{self.copy}/crates/{crate}", crate, functions) for name, text in edits.items()}
        places = {name: place for name, place in places.items() if place}
        if not places:
            return 0
        checks = 0
        with edit_rounds.tree_for(self.copy, crate) as folder:
            def check(names):
                nonlocal checks
                checks += 1
                edit_rounds.put_in_place(names, places, folder, f"{self.copy}/crates/{crate}")
                words = [word for name in names for word in ("--only", places[name].function)]
                with self.runs.started(["rt", "check", "--jobs", "1", *words], folder) as run:
                    return run.stdout.read().splitlines()

            for name, why in edit_rounds.tried_together(places, check):
                self.refuse(found, crate, name, why)
                self.say(f"{crate}/{name}: refused: {why[:200]}")
        return checks

    def alone(self, crate, found):
        """Has rt try each edit of the crate that is left, and gives whether it is content. All that it says is printed."""
        names = [name for name in self.edits[crate] if found[name] != "refused"]
        folder = f"{self.copy}/crates/{crate}/must-fail"
        shutil.rmtree(folder, ignore_errors=True)
        os.makedirs(folder)
        for name in names:
            with open(f"{folder}/{name}.edit", "w", encoding="utf-8") as file:
                file.write(self.edits[crate][name])
        verdict = re.compile(rf"rt: (?:must-fail {re.escape(crate)}/|\S*/must-fail/)(\S+)\.edit: ({'|'.join(VERDICTS)})\b")
        with self.runs.started(["rt", "must-fail", crate], self.copy) as run:
            for line in run.stdout:
                self.say(line.rstrip("\n"))
                said = verdict.match(line)
                if said and said[1] in names:
                    found[said[1]] = said[2]
                    if said[2] == "refused":
                        self.refuse(found, crate, said[1], line.rstrip("\n"))
        return run.returncode == 0

    def known(self, crate):
        """A verdict for each edit of the crate, by name: refused where an earlier run has seen that."""
        self.say(f"{crate}: to be tried: {len(self.edits[crate])}")
        found = dict.fromkeys(self.edits[crate], "NOT TRIED")
        for name, text in self.edits[crate].items():
            why = self.kept.said.get(self.kept.key(crate, text))
            if why is not None:
                found[name] = "refused"
                self.say(f"{crate}/{name}: refused by an earlier run: {why[:200]}")
        return found

    def tried(self, crate, lines, found):
        """Tries the edits of a crate that are left, and gives whether rt is content. `lines` is what rt says of the crate, or None where it isn't proved."""
        if lines is None:
            self.say(f"{crate}: it, or a crate that it uses, isn't proved, so none of its other edits was tried")
            return False
        earlier = Counter(found.values())["refused"]
        checks = 0 if self.is_alone else self.together(crate, lines, found)
        together = Counter(found.values())["refused"] - earlier
        is_content = set(found.values()) == {"refused"} or self.alone(crate, found)
        self.say(f"{crate}: {counted(found.values())}; {together} by {checks} checks of many")
        return is_content

    def tasks(self, found):
        """What is to be done for crates whose verdicts are these, some of them without one yet: for in_order."""
        below = {crate: set(edit_rounds.crates_at_or_below(self.copy, crate)) for crate in found}
        used = set().union(*(names - {crate} for crate, names in below.items()))
        tasks = {}
        for crate in crates_in_order():
            if crate in found or crate in used:
                needs = {("proved", name) for name in edit_rounds.crates_at_or_below(self.copy, crate)} - {("proved", crate)}
                tasks["proved", crate] = needs, lambda done, it=crate, own=needs: (
                    None if any(done[name] is None for name in own) else self.proved(it, it in used, it in found))
            if crate in found:
                tasks["tried", crate] = {("proved", crate)}, lambda done, it=crate: self.tried(it, done["proved", it], found[it])
        return tasks


def proved_functions(lines):
    """The functions that rt says are proved, by its names; those that may wait too."""
    return re.findall(r"(?m)^fn (\S+): proved(?:, .*)?$", "\n".join(lines))


def counted(verdicts):
    counts = Counter(verdicts)
    return ", ".join(f"{counts[verdict]} {verdict}" for verdict in VERDICTS)


def in_order(tasks, jobs, pool):
    """What tasks give, by name: so many are done at a time, each after those that it waits for, and of two that can be begun the first one. A task is the
    names of those, and a call that gets what was given so far."""
    done, running = {}, {}
    while len(done) < len(tasks):
        for name, (needs, call) in tasks.items():
            if len(running) < jobs and name not in done and name not in running.values() and needs <= done.keys():
                running[pool.submit(call, done)] = name
        if not running:
            raise CallError("crates.txt has crates that use one another")
        for ended in concurrent.futures.wait(running, return_when=concurrent.futures.FIRST_COMPLETED).done:
            done[running[ended]] = ended.result()
            del running[ended]
    return done


def try_all(copy, crates, edits, jobs, is_alone):
    """The exit status for the edits of these crates."""
    runs, pool = Runs(), concurrent.futures.ThreadPoolExecutor(jobs)
    try:
        trial = Trial(copy, edits, runs, jobs, is_alone)
        found = {crate: trial.known(crate) for crate in crates}
        tasks = trial.tasks({crate: verdicts for crate, verdicts in found.items() if set(verdicts.values()) != {"refused"}})
        if jobs > 1:
            # (the longest chain is one of proofs)
            tasks = dict(sorted(tasks.items(), key=lambda task: task[0][0]))
        done = in_order(tasks, jobs, pool)
    finally:
        runs.end()
        pool.shutdown()
    all_found = [verdict for verdicts in found.values() for verdict in verdicts.values()]
    print(f"in all: {counted(all_found)}", flush=True)
    return 0 if all(done.get(("tried", crate), True) for crate in crates) and set(all_found) <= {"refused"} else 1


def main():
    about, _, epilog = __doc__.partition("\n\n")
    parser = argparse.ArgumentParser(description=about, epilog=epilog, formatter_class=argparse.RawDescriptionHelpFormatter)
    parser.add_argument("names", nargs="*", metavar="NAME", help="a crate as crates.txt names it; none: all that have edits")
    parser.add_argument("--keep", metavar="DIR", help="make the copy in DIR, or use the one that is there")
    parser.add_argument("--alone", action="store_true", help="try each edit by a check of its own")
    parser.add_argument("--jobs", metavar="N", type=int, default=1, help="work on N crates at a time, each of which takes one to three GB (1)")
    parser.add_argument("--stand", action="store_true", help="only check that each edit can be applied; needs neither rt nor git")
    asked = parser.parse_args()
    try:
        if asked.jobs < 1:
            raise CallError("--jobs takes a number from 1 on")
        if asked.stand:
            return stand(asked.names)
        for command, why in (("rt", "rt, the command of the Rattle kit"), ("git", "git")):
            if shutil.which(command) is None:
                raise CallError(f"{why}, is not on PATH" if command == "rt" else f"{why} is not on PATH")
        paths = tracked()
        edits = edits_of(paths)
        crates = wanted(asked.names, edits)
        with copied(asked.keep, paths) as copy:
            return try_all(copy, crates, edits, asked.jobs, asked.alone)
    except CallError as error:
        print(f"edits.py: {error}", file=sys.stderr)
        return 2


def stop(number, _):
    sys.exit(128 + number)


if __name__ == "__main__":
    for number in (signal.SIGINT, signal.SIGTERM, signal.SIGHUP):
        signal.signal(number, stop)
    sys.exit(main())
