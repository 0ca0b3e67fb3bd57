"""Manual pages, completions, ./install and the Debian package, with a stand-in for both programs."""
import os
import re
import shutil
import subprocess
import sys
import unittest

import common

STAND_IN = os.path.join(common.ROOT, "tests", "python", "stand_in.py")
INSTALL = os.path.join(common.ROOT, "install")
UNKNOT = "x 0 1\no 1 0\n"


def jobs_of_help():
    """The jobs and options that ./knot --help has."""
    shown = common.call([os.path.join(common.ROOT, "knot"), "--help"]).stdout
    jobs = re.findall(r"(?m)^  ([a-z]+)  ", shown[shown.index("Jobs,"):shown.index("A diagram is")])
    return jobs, re.findall(r"(?m)^  (--[a-z]+) ", shown)


def options_of_seek():
    return re.findall(r"(?m)^ +(?:-., )?(--[a-z-]+)", common.read("examples", "seek", "help.out").split("Options:")[1])


class ManualPages(unittest.TestCase):
    def pages(self):
        folder = common.scratch(self)
        self.assertEqual(common.run("man.py", folder), (0, "", ""))
        self.assertEqual(sorted(os.listdir(folder)), ["knot-check.1", "knot-formats.5", "knot.1", "seek.1"])
        return folder

    def test_knot_has_each_job_option_and_status(self):
        text = common.run("man.py", "--print", "knot.1")[1]
        jobs, options = jobs_of_help()
        self.assertGreaterEqual(len(jobs), 12)
        for job in jobs:
            self.assertIn(f".TP\n\\fBknot {job}\\fR\n", text)
        for option in options:
            self.assertIn(f".TP\n\\fB\\-\\-{option[2:]}\\fR\n", text)
        for status in re.findall(r"(?m)^\| (\d+) \|", common.read("README.md")):
            self.assertIn(f".TP\n{status}\n", text)

    def test_seek_has_each_option(self):
        text = common.run("man.py", "--print", "seek.1")[1]
        self.assertGreaterEqual(len(options_of_seek()), 11)
        for option in options_of_seek():
            self.assertIn("--".replace("-", "\\-") + option[2:].replace("-", "\\-"), text)
        self.assertNotIn("./seek", text)

    def test_the_checker_has_its_statuses_alone(self):
        text = common.run("man.py", "--print", "knot-check.1")[1]
        self.assertEqual(re.findall(r"(?m)^\.TP\n(\d+)$", text), ["0", "2", "3", "4", "5", "6", "7", "8"])
        self.assertNotIn("crates/", text)

    def test_the_formats_have_each_heading_and_each_line_of_code(self):
        source, text = common.read("docs", "FORMATS.md"), common.run("man.py", "--print", "knot-formats.5")[1]
        for mark, title in re.findall(r"(?m)^(##+) (.*)$", source):
            self.assertIn((f".SH {title.upper()}" if mark == "##" else f".SS {title}").replace("-", "\\-"), text)
        plain = text.replace("\\-", "-").replace("\\e", "\\").replace("\\&", "")
        for line in re.findall(r"(?m)^    (\S.*)$", source):
            self.assertIn(f"\n{line}\n", plain)

    @unittest.skipUnless(shutil.which("man") and shutil.which("groff"), "there is no man")
    def test_man_shows_them_without_a_warning(self):
        folder = self.pages()
        for name in os.listdir(folder):
            done = common.call(["man", "--warnings", "-l", os.path.join(folder, name)], env={**os.environ, "LC_ALL": "C.UTF-8", "MANWIDTH": "100"})
            self.assertEqual((done.returncode, done.stderr), (0, ""), name)
            self.assertIn("SEE ALSO", done.stdout)

    def test_words_that_ask_for_nothing(self):
        for words in ([], ["/no/such/folder"], ["--print", "knot.7"], ["folder", "--print", "knot.1"]):
            self.assertEqual(common.run("man.py", *words)[0], 2)


class Completions(unittest.TestCase):
    def file(self, name):
        status, out, said = common.run("completions.py", "--print", name)
        self.assertEqual((status, said), (0, ""))
        return out

    def test_each_shell_has_each_job_and_option(self):
        jobs, options = jobs_of_help()
        for name, begin in (("knot.bash", "--"), ("_knot", "--"), ("knot.fish", "-l ")):
            text = self.file(name)
            for job in jobs:
                self.assertRegex(text, rf"\b{job}\b", name)
            for option in options:
                self.assertIn(begin + option[2:], text, name)
        for name, begin in (("seek.bash", "--"), ("_seek", "--"), ("seek.fish", "-l ")):
            for option in options_of_seek():
                self.assertIn(begin + option[2:], self.file(name), name)

    def test_bash_completes(self):
        for name, words, wanted in (("knot", ["knot", "de"], ["decide"]), ("knot", ["knot", "decide", "--s"], ["--spare", "--seed"]),
                                    ("knot", ["knot", "--budget", ""], []), ("knot", ["knot", "decide", ""], []), ("knot", ["knot", "--budget", "5", "de"], ["decide"]), ("seek", ["seek", "--qu"], ["--quandles", "--quiet"]),
                                    ("seek", ["seek", "--out", "a"], ["a file"])):
            folder = common.scratch(self)
            with open(os.path.join(folder, "a file"), "w", encoding="utf-8"):
                pass
            script = self.file(f"{name}.bash") + f'COMP_WORDS=("$@"); COMP_CWORD=$(($# - 1)); _{name}_words; printf "%s\\n" "${{COMPREPLY[@]}}"\n'
            done = common.call(["bash", "-c", script, "bash", *words], cwd=folder)
            self.assertEqual([line for line in done.stdout.splitlines() if line], wanted, words)

    def test_other_shells_take_the_files(self):
        for shell, names in (("zsh", ("_knot", "_seek")), ("fish", ("knot.fish", "seek.fish"))):
            if not shutil.which(shell):
                continue
            for name in names:
                path = os.path.join(common.scratch(self), name)
                with open(path, "w", encoding="utf-8") as out:
                    out.write(self.file(name))
                done = common.call([shell, "-n", path])
                self.assertEqual((done.returncode, done.stderr), (0, ""), name)
        if shutil.which("fish"):
            done = common.call(["fish", "-c", self.file("knot.fish") + "\ncomplete -C 'knot de'\ncomplete -C 'knot check --b'\n"], env={**os.environ, "HOME": common.scratch(self)})
            self.assertEqual([line.split("\t")[0] for line in done.stdout.splitlines()], ["decide", "--budget"])


class Installed(unittest.TestCase):
    def setUp(self):
        self.folder = common.scratch(self)
        self.prefix = os.path.join(self.folder, "a prefix")
        # The stand-in wants the reader beside it, so a program is a line that calls it.
        self.program = os.path.join(self.folder, "program")
        with open(self.program, "w", encoding="utf-8") as out:
            out.write(f'#!/bin/sh\nexec "{sys.executable}" "{STAND_IN}" "$@"\n')
        os.chmod(self.program, 0o755)

    def called(self, *words, **more):
        done = common.call([sys.executable, "-B", INSTALL, "--prefix", self.prefix, *words], env={**os.environ, "KNOT": self.program, "SEEK": self.program, **more})
        return done.returncode, done.stdout, done.stderr

    def installed(self):
        found = []
        for place, _, names in os.walk(self.prefix):
            found += [os.path.relpath(os.path.join(place, name), self.prefix) for name in names]
        return sorted(found)

    def path(self, *parts):
        return os.path.join(self.prefix, *parts)

    def test_all_is_put_there_and_taken_away(self):
        status, out, said = self.called()
        self.assertEqual((status, said), (0, ""))
        files = self.installed()
        self.assertIn(f"{len(files) - 1} files installed below {self.prefix}\n", out)
        self.assertIn(f"put {self.prefix}/bin into PATH\n", out)
        for path in ("bin/knot", "bin/seek", "lib/knot-workbench/knot", "lib/knot-workbench/seek", "share/man/man1/knot.1", "share/man/man1/seek.1", "share/man/man5/knot-formats.5",
                     "share/bash-completion/completions/knot", "share/zsh/site-functions/_seek", "share/fish/vendor_completions.d/knot.fish",
                     "share/knot-workbench/quandles/list-64.txt", "share/knot-workbench/tables/prime-knots-to-12.csv", "share/knot-workbench/quandles/weights/T5.txt",
                     "share/knot-workbench/quandles/weights/list.txt", "share/knot-workbench/installed.txt", "share/knot-workbench/tools/batch.py",
                     "share/knot-workbench/tools/lib/calls/calls.py", "share/knot-workbench/tools/stages.txt", "share/doc/knot-workbench/docs/GUIDE.md",
                     "share/doc/knot-workbench/examples/check/unknot-shifted.txt", "bin/knot-batch", "bin/knot-census", "bin/knot-table", "bin/knot-identify",
                     "bin/knot-draw", "bin/knot-page", "bin/knot-invariants", "bin/knot-code", "bin/knot-turn", "bin/knot-join", "bin/knot-cocycles", "bin/knot-pieces"):
            self.assertIn(path, files)
        self.assertFalse([path for path in files if "/make/" in path])
        self.assertEqual(self.called("--uninstall"), (0, f"{len(files) - 1} files removed from {self.prefix}\n", ""))
        self.assertFalse(os.path.exists(self.prefix))
        status, out, said = self.called("--uninstall")
        self.assertEqual((status, out), (1, ""))
        self.assertIn("nothing was installed below", said)

    def test_the_commands_run(self):
        self.called()
        knot = self.path("bin", "knot")
        shown = common.call([os.path.join(common.ROOT, "knot"), "--help"]).stdout
        documents = self.path("share", "doc", "knot-workbench")
        shown = shown.replace("docs/", f"{documents}/docs/").replace("examples/", f"{documents}/examples/")
        # Each document and example that the help names is there.
        for path in re.findall(re.escape(documents) + r"/[\w./-]+\w", shown):
            self.assertTrue(os.path.isfile(path), path)
        for words in (["--help"], ["help"], ["-h"], ["help", "check"], ["decide", "--help"]):
            done = common.call([knot, *words])
            self.assertEqual((done.returncode, done.stdout), (0, shown))
        self.assertEqual(common.call([knot, "--version"]).stdout, common.call([os.path.join(common.ROOT, "knot"), "--version"]).stdout)
        done = common.call([knot, "code"], text=UNKNOT)
        self.assertEqual((done.returncode, done.stdout), (0, "crossings 0\nloops 1\n"))
        self.assertEqual(common.call([knot, "nojob"], text="").returncode, 2)
        done = common.call([knot, "check", "--budget", "5"], text=UNKNOT)
        self.assertEqual((done.returncode, done.stderr), (2, "knot: --budget does nothing for check: it is an option of decide, simplify and least\n"))

    def test_seek_is_given_the_installed_list(self):
        with open(self.program, "w", encoding="utf-8") as out:
            out.write('#!/bin/sh\nprintf "%s\\n" "$@"\n')
        self.called()
        listed = self.path("share", "knot-workbench", "quandles", "weights", "list.txt")
        for words, wanted in (["--seed", "2", "a b"], ["--weights", listed, "--seed", "2", "a b"]), (["--weights=x", "a"], ["--weights=x", "a"]), (["--version"], ["--version"]):
            self.assertEqual(common.call([self.path("bin", "seek"), *words]).stdout.splitlines(), wanted)
        shown = common.call([self.path("bin", "seek"), "--help"]).stdout
        self.assertTrue(shown.startswith("--help\n\nOptions of the launcher"), shown)

    def test_the_module_finds_the_programs_beside_it(self):
        self.called()
        python = next(os.path.dirname(os.path.dirname(path)) for path in self.installed() if path.endswith("knot_workbench/__init__.py"))
        script = "import knot_workbench as kw; print(kw.__file__, kw.path_of('seek')); print(kw.code(kw.Grid([0, 1], [1, 0])).loops)"
        plain = {name: value for name, value in os.environ.items() if name not in ("KNOT", "SEEK")}
        done = common.call([sys.executable, "-c", script], cwd="/", env={**plain, "PYTHONPATH": self.path(python)})
        self.assertEqual((done.stdout, done.stderr), (f"{self.path(python)}/knot_workbench/__init__.py {self.path('bin', 'seek')}\n1\n", ""))
        # Python has made files of its own, which go too.
        self.assertEqual(self.called("--uninstall")[0], 0)
        self.assertFalse(os.path.exists(self.prefix))

    def test_files_of_others_stay(self):
        os.makedirs(self.path("bin"))
        with open(self.path("bin", "seek"), "w", encoding="utf-8") as out:
            out.write("another one\n")
        status, out, said = self.called()
        self.assertEqual((status, out), (1, ""))
        self.assertIn(f"{self.path('bin', 'seek')} is there already, and no installation put it there; nothing was installed", said)
        self.assertEqual(self.installed(), ["bin/seek"])
        os.unlink(self.path("bin", "seek"))
        with open(self.path("bin", "other"), "w", encoding="utf-8") as out:
            out.write("another one\n")
        self.called()
        self.called("--uninstall")
        self.assertEqual(self.installed(), ["bin/other"])

    def test_the_checker_alone(self):
        with open(self.program, "w", encoding="utf-8") as out:
            out.write('#!/bin/sh\necho "$# words"\ncat\n')
        status, out, said = self.called("--checker", KNOT="", SEEK="", KNOT_CHECK=self.program)
        self.assertEqual((status, said), (0, ""))
        self.assertIn(f"3 files installed below {self.prefix}\n", out)
        self.assertEqual(self.installed(), ["bin/knot-check", "share/knot-workbench/installed.txt", "share/man/man1/knot-check.1", "share/man/man5/knot-formats.5"])
        self.assertEqual(common.call([self.path("bin", "knot-check")], text="evidence\n").stdout, "0 words\nevidence\n")
        self.assertEqual(self.called("--uninstall"), (0, f"3 files removed from {self.prefix}\n", ""))
        self.assertFalse(os.path.exists(self.prefix))
        status, out, said = self.called("--checker", KNOT_CHECK="/no/such/program")
        self.assertEqual((status, out), (1, ""))
        self.assertIn("build it with tools/build.py knot_check", said)

    def test_all_takes_the_place_of_the_checker_and_not_the_other_way(self):
        self.assertEqual(self.called("--checker", KNOT_CHECK=self.program)[0], 0)
        self.assertEqual(self.called()[0], 0)
        self.assertNotIn("bin/knot-check", self.installed())
        before = self.installed()
        status, out, said = self.called("--checker", KNOT_CHECK=self.program)
        self.assertEqual((status, out), (1, ""))
        self.assertIn("all is installed below", said)
        self.assertEqual(self.installed(), before)

    def test_a_changed_file_is_left_and_told(self):
        self.called()
        page = self.path("share", "man", "man1", "knot.1")
        with open(page, "a", encoding="utf-8") as out:
            out.write("a line\n")
        status, out, said = self.called("--uninstall")
        self.assertEqual((status, said), (1, f"install: {page} was changed since, and is left\n"))
        self.assertIn(", 1 left that were changed", out)
        self.assertEqual(self.installed(), ["share/knot-workbench/installed.txt", "share/man/man1/knot.1"])
        # A further installation takes its place, and keeps what was there.
        status, out, said = self.called()
        self.assertEqual((status, said), (0, f"install: {page} was changed since, and what it was is {page}.changed\n"))
        with open(f"{page}.changed", encoding="utf-8") as file:
            self.assertTrue(file.read().endswith("\na line\n"))
        self.assertEqual(self.called("--uninstall")[0], 0)
        self.assertEqual(self.installed(), ["share/man/man1/knot.1.changed"])

    def test_a_changed_file_that_is_removed_leaves_nothing(self):
        self.called()
        page = self.path("share", "man", "man1", "knot.1")
        with open(page, "a", encoding="utf-8") as out:
            out.write("a line\n")
        self.assertEqual(self.called("--uninstall")[0], 1)
        os.unlink(page)
        self.assertEqual(self.called("--uninstall")[0], 0)
        self.assertFalse(os.path.exists(self.prefix))

    def test_knot_alone(self):
        status, out, said = self.called("--only", "knot", SEEK="/no/such/program")
        self.assertEqual((status, said), (0, ""))
        files = self.installed()
        self.assertIn("bin/knot-batch", files)
        for path in files:
            self.assertFalse(os.path.basename(path) in ("seek", "_seek", "seek.fish", "seek.1", "knot-identify") and not path.startswith("share/doc"), path)
        self.assertEqual(common.call([self.path("bin", "knot"), "code"], text=UNKNOT).stdout, "crossings 0\nloops 1\n")
        # The rest comes beside it, and all goes together.
        self.assertEqual(self.called()[0], 0)
        self.assertIn("bin/seek", self.installed())
        self.assertEqual(self.called("--uninstall")[0], 0)
        self.assertFalse(os.path.exists(self.prefix))
        self.assertEqual(self.called("--only", "knot", "--checker")[0], 2)

    def test_the_tools_run_from_any_place(self):
        self.called()
        plain = {name: value for name, value in os.environ.items() if name not in ("KNOT", "SEEK", "PYTHONPATH")}

        def tool(name, *words, text=""):
            return common.call([self.path("bin", name), *words], text=text, cwd=self.folder, env=plain)
        for name in sorted(os.listdir(self.path("bin"))):
            if name.startswith("knot-"):
                done = tool(name, "--help")
                self.assertEqual((done.returncode, done.stderr), (0, ""), name)
        self.assertTrue(tool("knot-draw", text=UNKNOT).stdout.startswith("<svg"))
        self.assertIn("<html", tool("knot-page", text=UNKNOT + UNKNOT + "equal 0\n").stdout)
        self.assertEqual(tool("knot-turn", "--mirror", text="braid 2 1 1 1\n").stdout, "braid 2 -1 -1 -1\n")
        self.assertIn("crossings 3\n", tool("knot-code", "DT[4,6,2]").stdout)
        table = self.path("share", "doc", "knot-workbench", "examples", "table", "knots.csv")
        done = tool("knot-table", table, "problems", "--diagram", "braid_notation", "--second", "braid_notation")
        self.assertIn("9 rows: 8 problems in problems", done.stdout)
        os.mkdir(os.path.join(self.folder, "certificates"))
        with open(os.path.join(self.folder, "certificates", "one.txt"), "w", encoding="utf-8") as out:
            out.write(UNKNOT + UNKNOT + "equal 0\n")
        done = tool("knot-batch", "--job", "check", "certificates", "rulings")
        self.assertEqual((done.returncode, done.stdout), (0, "1 problems: 1 accepted\n"))

    def test_a_second_installation_takes_the_place_of_the_first(self):
        self.called()
        before = self.installed()
        with open(self.program, "a", encoding="utf-8") as out:
            out.write("# newer\n")
        self.assertEqual(self.called()[0], 0)
        self.assertEqual(self.installed(), before)
        with open(self.path("lib", "knot-workbench", "seek"), encoding="utf-8") as file:
            self.assertIn("# newer", file.read())
        self.assertEqual(self.called("--uninstall")[0], 0)
        self.assertFalse(os.path.exists(self.prefix))

    def test_faults_are_told(self):
        status, out, said = self.called(SEEK=os.path.join(self.folder, "none"))
        self.assertEqual((status, out), (1, ""))
        self.assertIn("none: build both with tools/build.py", said)
        self.assertIn("--only knot leaves seek out", said)
        self.assertFalse(os.path.exists(self.prefix))
        with open(os.path.join(self.folder, "file"), "w", encoding="utf-8"):
            pass
        done = common.call([sys.executable, INSTALL, "--prefix", os.path.join(self.folder, "file")], env={**os.environ, "KNOT": self.program, "SEEK": self.program})
        self.assertEqual((done.returncode, done.stdout), (1, ""))
        self.assertNotIn("Traceback", done.stderr)
        self.assertEqual(common.call([INSTALL]).returncode, 2)
        self.assertEqual(self.called("--uninstall", "--destdir", "/")[0], 2)
        self.assertTrue(common.call([INSTALL, "--help"]).stdout.startswith("usage: install"))

    @unittest.skipUnless(shutil.which("dpkg-deb"), "there is no dpkg-deb")
    def test_a_debian_package(self):
        script = os.path.join(common.TOOLS, "package.sh")
        made = {**os.environ, "KNOT": self.program, "SEEK": self.program, "DEBFULLNAME": "A Maker", "DEBEMAIL": "maker@debian.org"}
        done = common.call([script, self.folder], env=made)
        self.assertEqual((done.returncode, done.stderr), (0, ""))
        package = done.stdout.strip()
        if shutil.which("lintian"):
            told = common.call(["lintian", package]).stdout
            self.assertEqual([line for line in told.splitlines() if line.startswith("E:")], [])
        files = re.findall(r"(?m)^(\S+) root/root +\d+ \S+ \S+ \.(/.*[^/])$", common.call(["dpkg-deb", "-c", package]).stdout)
        modes = {path: mode for mode, path in files}
        self.assertEqual((modes["/usr/bin/knot"], modes["/usr/bin/seek"], modes["/usr/share/man/man1/knot.1.gz"]), ("-rwxr-xr-x", "-rwxr-xr-x", "-rw-r--r--"))
        self.assertIn("/usr/lib/python3/dist-packages/knot_workbench/__init__.py", modes)
        self.assertNotIn("/usr/share/knot-workbench/installed.txt", modes)
        for path in ("/usr/bin/knot-batch", "/usr/share/doc/knot-workbench/copyright", "/usr/share/doc/knot-workbench/changelog.gz", "/usr/share/doc/knot-workbench/docs/GUIDE.md"):
            self.assertIn(path, modes)
        self.assertNotIn("localhost", subprocess.run(["dpkg-deb", "-f", package, "Maintainer"], capture_output=True, text=True, check=True).stdout)
        said = subprocess.run(["dpkg-deb", "-f", package, "Package", "Version"], capture_output=True, text=True, check=True).stdout
        self.assertEqual(said, f"Package: knot-workbench\nVersion: {common.call([os.path.join(common.ROOT, 'knot'), '--version']).stdout.split()[1]}\n")
        told = common.call([script, self.folder], env={**made, "DEBEMAIL": "maker@localhost"}).stderr
        self.assertIn("warning: the package names A Maker <maker@localhost>, to whom nobody can write", told)
        self.assertEqual(common.call([script, "/no/such/folder"]).returncode, 2)
        self.assertEqual(common.call([script, "--help"]).stdout.splitlines()[0][:22], "Makes a Debian package")


if __name__ == "__main__":
    unittest.main()
