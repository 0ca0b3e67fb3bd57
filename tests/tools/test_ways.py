"""Tests that no way of running tools/batch.py changes an answer, nor what the programs are asked: by one call, in parts, by the lines of
docs/BATCH.md for GNU parallel and for ssh alone, and as an array job. ssh and the queue are stand-ins. With stand-ins for knot and seek, and with
the programs where they are built."""
import hashlib
import json
import os
import re
import shutil
import subprocess
import sys
import unittest

import common

SCRIPT = os.path.join(common.TOOLS, "batch.py")
JOB = os.path.join(common.ROOT, "examples", "batch", "array-job.sh")
EXAMPLES = os.path.join(common.ROOT, "examples", "batch", "problems")
STAND_IN = os.path.join(common.ROOT, "tests", "tools", "logged_program.py")
HAS_PARALLEL = shutil.which("parallel") is not None
BUILT = [os.environ.get(name.upper()) or os.path.join(common.ROOT, "crates", name, "out", name) for name in ("knot", "seek")]

# Like ssh it takes the host and puts the other words together. It runs them in another folder and without most of the environment, where the
# host isn't dead.
SSH = """#!/bin/sh
host=$1; shift
[ "$1" = -- ] && shift
[ "$host" = dead ] && exit 255
echo "$host" >>'{folder}/logins'
cd / && exec env -i PATH="$PATH" HOME="$HOME" SHELL=/bin/sh KNOT='{tree}/knot' SEEK='{tree}/seek' sh -c "$*"
"""

LAUNCHER = '#!/bin/sh\nhere=$(dirname -- "$(readlink -f -- "$0")")\nfor word; do case $word in --weights*) named=1 ;; esac; done\n' \
    '[ -n "${named-}" ] || [ "${0##*/}" = knot ] || set -- --weights "$here/quandles/weights/list.txt" "$@"\n' \
    'exec "$here/crates/${0##*/}/out/${0##*/}" "$@"\n'

EMPTY = hashlib.sha256(b"").hexdigest()
UNKNOTS = "x 0 1\no 1 0\nx 0 1\no 1 0\n"
TRIALS = {EMPTY, *(hashlib.sha256(text.encode()).hexdigest() for text in (UNKNOTS, UNKNOTS + "equal 0\n"))}


# The calls of each way, each with the words before those of the folders.
WAYS = {"alone": [[]], "parts": [["--part", "1/2"], ["--part", "2/2"], []]}


class WaysTest(unittest.TestCase):
    """A tree with launchers and a list of quandles with cocycles, whose programs are stand-ins."""

    programs = [STAND_IN, STAND_IN]

    def setUp(self):
        self.folder = common.scratch(self)
        self.tree = os.path.join(self.folder, "tree")
        for name, program in zip(("knot", "seek"), self.programs):
            os.makedirs(os.path.join(self.tree, "crates", name, "out"))
            os.symlink(program, os.path.join(self.tree, "crates", name, "out", name))
            self.put(os.path.join("tree", name), LAUNCHER)
            os.chmod(os.path.join(self.tree, name), 0o755)
        self.put("tree/crates.txt", "")
        os.symlink(common.LISTS, os.path.join(self.tree, "quandles"))

    def put(self, name, text):
        path = os.path.join(self.folder, name)
        with open(path, "w", encoding="utf-8") as out:
            out.write(text)
        return path

    def environment(self, **more):
        return {**os.environ, "KNOT": os.path.join(self.tree, "knot"), "SEEK": os.path.join(self.tree, "seek"), **more}

    def run_way(self, way, words, problems):
        """Runs a folder in a way: the statuses of all calls, and the folder of answers."""
        answers = os.path.join(self.folder, f"answers-{way}-{len(os.listdir(self.folder))}")
        statuses = []
        for more in WAYS[way]:
            call = [sys.executable, "-B", SCRIPT, *more, "--processes", "2", *words, problems, answers]
            done = subprocess.run(call, env=self.environment(), capture_output=True, text=True, check=False, timeout=common.LONG)
            self.assertNotIn("Traceback", done.stderr)
            statuses.append((done.returncode, done.stdout))
        return statuses, answers

    def kept(self, answers):
        """All that is kept, but for seconds."""
        found = {}
        for path in (os.path.join(folder, name) for folder, _, names in os.walk(answers) for name in names):
            with open(path, encoding="utf-8") as file:
                text = re.sub(r'"seconds": [0-9.e-]+', '"seconds": 0', file.read())
            found[os.path.relpath(path, answers)] = re.sub(r",[0-9]+\.[0-9]{3},(accepted|)$", r",0,\1", text, flags=re.M)
        return found

    def calls(self):
        """The calls since the last look, but for the trials before the first problem."""
        path = os.path.join(self.tree, "calls")
        with open(path, encoding="utf-8") as file:
            made = sorted(line for line in file if json.loads(line)[-1] not in TRIALS)
        os.unlink(path)
        return made

    def ways_alike(self, words, problems):
        """Runs a folder in all ways: what was kept by each, where all are alike."""
        found = {}
        for way in WAYS:
            with self.subTest(way=way, words=words):
                statuses, answers = self.run_way(way, words, problems)
                made = self.calls() if self.programs[0] == STAND_IN else None
                found[way] = statuses[-1], self.kept(answers), made
                self.assertEqual(found[way][0], found["alone"][0])
                self.assertEqual(found[way][1], found["alone"][1])
                self.assertEqual(found[way][2], found["alone"][2])
        return found["alone"]


class StandIns(WaysTest):
    def problems(self, most=6):
        """Problems of all ends: one unknown, one settled late, one refused, and others; or so many of them."""
        os.mkdir(os.path.join(self.folder, "problems"))
        every = {"f": "# nothing\n", "c d'e": "# at 500000: 0 certificate 2 / equal 1 / shift rows 1\n", "g": "# at +20000: 4 limit line 4\n# at 500000: 3 malformed line 4\n",
                 "a": "# at +20000: 0 equal 0\n", "b": "# seek: 0 certificate 3 / different numbers dihedral 3 / seeds 0 / numbers 9 / seeds 0 / numbers 3\n",
                 "h": "# at +20000: 1 unknown exhausted 5 2\n# seek: 1\n# says: nothing found: none distinguishes them\n"}
        for name, text in list(every.items())[:most]:
            self.put(os.path.join("problems", name + ".txt"), text)
        return os.path.join(self.folder, "problems")


class StandInTest(StandIns):
    def test_the_default_stages_are_the_same_in_all_ways(self):
        (status, out), kept, made = self.ways_alike([], self.problems())
        self.assertEqual((status, out), (3, "6 problems: 1 different, 2 equal, 1 refused, 2 unknown; 3 of 3 certificates accepted\n"))
        # seek has the list of its tree, and its digest is kept with each try.
        seeks = [json.loads(line) for line in made if json.loads(line)[0] == "seek"]
        listed = os.path.join(self.tree, "quandles", "weights", "list.txt")
        self.assertEqual({tuple(call[1:-1]) for call in seeks}, {(f"--weights={listed}",)})
        with open(listed, "rb") as file:
            self.assertIn(f'"--weights={hashlib.sha256(file.read()).hexdigest()}"', kept["answers/f.txt"])

    def test_the_examples_are_the_same_in_all_ways(self):
        # All stages of the tree are asked of them, as the stand-in finds nothing.
        two = os.path.join(self.folder, "two")
        os.mkdir(two)
        for name in ("3_1-mirror-image.txt", "6_1-grid.txt"):
            shutil.copy(os.path.join(EXAMPLES, name), two)
        self.ways_alike([], two)
        self.ways_alike(["--job", "seek"], two)
        self.ways_alike(["--program", os.path.join(self.tree, "seek"), "--job", ""], two)

    def test_stages_of_ones_own_and_other_jobs(self):
        problems = self.problems(2)
        self.put("mine.txt", "quandle dihedral 11\n")
        stages = self.put("stages.txt", "a --budget 100 +mine.txt\nb seek --steps 5 --quandles mine.txt\nc seek --no-weights\nd seek --weights=mine.txt\n")
        home = os.getcwd()
        self.addCleanup(os.chdir, home)
        # A list that a stage names is looked for where the call is made, wherever its problems are run.
        os.chdir(self.folder)
        _, _, made = self.ways_alike(["--stages", stages], problems)
        words = {tuple(json.loads(line)[1:-1]) for line in made if json.loads(line)[0] == "seek"}
        mine, listed = os.path.join(self.folder, "mine.txt"), os.path.join(self.tree, "quandles", "weights", "list.txt")
        self.assertEqual(words, {(f"--weights={listed}", "--steps", "5", f"--quandles={mine}"), ("--no-weights",), (f"--weights={mine}",)})
        self.ways_alike(["--job", "check"], problems)

    def test_an_array_job_answers_as_one_call_does(self):
        problems = self.problems()
        (status, out), before, made = self.run_way("alone", [], problems)[0][-1], None, self.calls()
        alone = self.kept(self.run_way("alone", [], problems)[1])
        self.calls()
        answers = os.path.join(self.folder, "array")
        for task in range(1, 9):
            slurm = {"SLURM_ARRAY_TASK_ID": str(task), "SLURM_ARRAY_TASK_COUNT": "8", "SLURM_ARRAY_TASK_MIN": "1", "SLURM_ARRAY_TASK_MAX": "8", "SLURM_CPUS_PER_TASK": "2"}
            done = subprocess.run(["sh", JOB, problems, answers], env=self.environment(**slurm), capture_output=True, text=True, check=False, cwd=common.ROOT, timeout=common.LONG)
            # Two of eight parts are empty; what is refused makes its own task fail alone.
            self.assertEqual(done.returncode, 3 if task == 5 else 0, done.stderr)
        done = subprocess.run([sys.executable, "-B", SCRIPT, problems, answers], env=self.environment(), capture_output=True, text=True, check=False)
        self.assertEqual((done.returncode, done.stdout, before), (status, out, None))
        self.assertEqual(self.kept(answers), alone)
        self.assertEqual(self.calls(), made)

    def test_the_number_of_an_arrays_tasks_is_told_where_not_all_are_sent(self):
        for count, least, most, words, status in (("4", "1", "4", [], 0), ("1", "3", "3", [], 2), ("1", "3", "3", ["16"], 0), ("4", "0", "3", [], 2)):
            slurm = {"SLURM_ARRAY_TASK_ID": most, "SLURM_ARRAY_TASK_COUNT": count, "SLURM_ARRAY_TASK_MIN": least, "SLURM_ARRAY_TASK_MAX": most}
            done = subprocess.run(["sh", JOB, EXAMPLES, os.path.join(self.folder, "array"), *words], env=self.environment(**slurm), capture_output=True, text=True,
                                  check=False, cwd=common.ROOT, timeout=common.LONG)
            self.assertEqual(done.returncode, status, done.stderr)

    def test_a_stage_by_its_name_is_tried_as_in_a_whole_call(self):
        problems = self.problems()
        _, answers = self.run_way("alone", ["--stages", self.put("stages.txt", "a seek --steps 5\n")], problems)
        made = [call for call in self.calls() if json.loads(call)[0] == "seek"]
        alone = os.path.join(self.folder, "alone")
        for name in ("a", "b", "c d'e", "f", "g", "h"):
            words = ["--stages", os.path.join(self.folder, "stages.txt"), "--stage", "a", os.path.join(problems, name + ".txt"), alone]
            done = subprocess.run([sys.executable, "-B", SCRIPT, *words], env=self.environment(), capture_output=True, text=True, check=False, timeout=common.LONG)
            self.assertEqual((done.returncode, done.stderr), (0, ""))
        self.assertEqual(self.calls(), made)
        self.assertEqual(self.kept(alone), {name: text for name, text in self.kept(answers).items() if name.startswith("answers")})

    def test_what_was_tried_without_a_list_is_tried_with_it(self):
        problems = self.problems()
        _, answers = self.run_way("alone", [], problems)
        path = os.path.join(answers, "answers", "f.txt")
        with open(path, encoding="utf-8") as file:
            text = file.read()
        # As a folder has it that was made before lists were part of a stage.
        with open(path, "w", encoding="utf-8") as out:
            out.write(re.sub(r'"--weights=[0-9a-f]{64}"', "", text).replace('["seek", ]', '["seek"]'))
        self.calls()
        subprocess.run([sys.executable, "-B", SCRIPT, problems, answers], env=self.environment(), capture_output=True, check=False, timeout=common.LONG)
        self.assertEqual([json.loads(line)[0] for line in self.calls()], ["seek"])


class PageTest(StandIns):
    """The lines of docs/BATCH.md for several machines, in a folder that has the tools, the problems and a file of logins."""

    def setUp(self):
        super().setUp()
        self.problems()
        os.symlink(common.TOOLS, os.path.join(self.folder, "tools"))
        ssh = self.put("ssh", SSH.format(folder=self.folder, tree=self.tree))
        os.chmod(ssh, 0o755)
        self.put("hosts.txt", f"2/{ssh} one\n2/{ssh} two\n1/{ssh} dead\n")

    def lines(self, word):
        """The command of the page that has this word, with fewer parts, and the one after it."""
        page = common.read("docs", "BATCH.md").splitlines()
        place = next(place for place, line in enumerate(page) if line.startswith("    $ ") and word in line)
        return [line[len("    $ "):].replace("64", "8") for line in page[place:place + 2]]

    def alike(self, word):
        """Runs these commands: they leave what one call leaves, and both hosts worked."""
        alone, asked = self.run_way("alone", [], os.path.join(self.folder, "problems")), self.calls()
        path = self.folder + os.pathsep + os.environ["PATH"]
        environment = self.environment(PATH=path)
        environment.pop("SHELL", None)
        for line in self.lines(word):
            done = subprocess.run(["sh", "-c", line], cwd=self.folder, env=environment, capture_output=True, text=True, check=False, timeout=common.LONG)
        self.assertEqual((done.returncode, done.stdout), alone[0][0])
        self.assertEqual(self.kept(os.path.join(self.folder, "answers")), self.kept(alone[1]))
        self.assertEqual(self.calls(), asked)
        with open(os.path.join(self.folder, "logins"), encoding="utf-8") as file:
            return set(file.read().split())

    @unittest.skipUnless(HAS_PARALLEL, "GNU parallel is not installed")
    def test_the_line_of_gnu_parallel_answers_as_one_call_does_though_a_host_is_dead(self):
        self.assertEqual(self.alike("| parallel "), {"one", "two"})

    def test_the_line_of_ssh_alone_answers_as_one_call_does(self):
        self.assertEqual(self.alike("do ssh "), {"host1", "host2"})


@unittest.skipUnless(all(os.access(path, os.X_OK) for path in BUILT), "knot and seek are not built here; KNOT and SEEK may name built ones")
class BuiltTest(WaysTest):
    programs = BUILT

    def test_the_examples_are_the_same_in_all_ways(self):
        # The verdicts of the page docs/BATCH.md.
        due = {"3_1-4_1": "different", "3_1-grid": "equal", "3_1-mirror-image": "different", "6_1-grid": "equal", "6_2-6_3": "different"}
        (status, out), kept, _ = self.ways_alike([], EXAMPLES)
        self.assertEqual((status, out), (0, "5 problems: 3 different, 2 equal; 5 of 5 certificates accepted\n"))
        self.assertEqual({row.split(",")[0]: row.split(",")[3] for row in kept["summary.csv"].splitlines()[1:]}, due)
        folder = os.path.join(self.folder, "certificates")
        os.mkdir(folder)
        for name, text in kept.items():
            if name.startswith("certificates"):
                self.put(name, text)
        (status, out), _, _ = self.ways_alike(["--job", "check"], folder)
        self.assertEqual((status, out), (0, "5 problems: 5 accepted\n"))
        self.ways_alike(["--job", "seek"], EXAMPLES)


if __name__ == "__main__":
    unittest.main()
