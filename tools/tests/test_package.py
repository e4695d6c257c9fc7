"""Tests of tools/ as a package: its entry points, its data, its version, and an installed copy."""

import ast
import os
import re
import shutil
import subprocess
import sys
import tempfile
import unittest

from reporting import REPLIED
from running import ENVIRONMENT, TOOLS, TOP, example, module_of

PROJECT = os.path.join(TOOLS, "pyproject.toml")
SCRIPT = "#!/usr/bin/env python3\nfrom steerlib.programs import %s\n\n%s.entry()\n"


def text_of(*parts):
    with open(os.path.join(*parts), encoding="utf-8") as stream:
        return stream.read()


def scripts():
    """The programs of tools/ by name."""
    return sorted(name for name in os.listdir(TOOLS) if name.startswith("steer-"))


def entry_points():
    """The commands of pyproject.toml: the module and function of each."""
    section = text_of(PROJECT).split("\n[project.scripts]\n")[1].split("\n[")[0]
    return dict(re.findall(r'^(\S+) = "(\S+)"$', section, re.MULTILINE))


def builder():
    """A Python that can install a package from a folder without a network, or None."""
    check = ("import setuptools, wheel, pip, sys; "
             "sys.exit(int(setuptools.__version__.split('.')[0]) < 61)")
    for python in (sys.executable, "/usr/bin/python3"):
        if os.access(python, os.X_OK) and subprocess.run(
                [python, "-c", check], stderr=subprocess.DEVNULL).returncode == 0:
            return python
    return None


class Package(unittest.TestCase):
    def test_each_script_is_an_entry_point(self):
        wanted = {}
        for name in scripts():
            if name == "steer-snap":
                continue
            module = name[len("steer-"):].replace("-", "_")
            module += "_" if module == "try" else ""
            wanted[name] = "steerlib.programs.%s:entry" % module
            self.assertEqual(text_of(TOOLS, name), SCRIPT % (module, module), name)
            self.assertTrue(callable(module_of(name).main), name)
            self.assertTrue(callable(module_of(name).entry), name)
        self.assertEqual(entry_points(), wanted)

    def test_steer_snap_is_installed_as_it_is(self):
        self.assertIn('\nscript-files = ["steer-snap"]\n', text_of(PROJECT))
        self.assertTrue(text_of(TOOLS, "steer-snap").startswith("#!/bin/sh\n"))

    def test_one_version(self):
        version = re.search('^version = "(.*)"$', text_of(PROJECT), re.MULTILINE).group(1)
        self.assertRegex(version, r"^\d+\.\d+\.\d+$")
        if os.path.exists(os.path.join(TOP, "VERSION")):
            self.assertEqual(text_of(TOP, "VERSION").strip(), version)

    def test_through_a_link(self):
        with tempfile.TemporaryDirectory() as folder:
            for name in scripts():
                link = os.path.join(folder, name)
                os.symlink(os.path.join(TOOLS, name), link)
                ended = subprocess.run([link, "--help"], stdout=subprocess.PIPE, cwd=folder,
                                       stderr=subprocess.PIPE)
                self.assertEqual((ended.returncode, ended.stderr), (0, b""), name)
                self.assertTrue(ended.stdout.decode().startswith("usage: %s " % name), name)


def public_functions(tree):
    """The functions of a module and of its classes whose names begin without an underscore."""
    for node in tree.body:
        if isinstance(node, ast.ClassDef) and not node.name.startswith("_"):
            yield from public_functions(node)
        elif isinstance(node, ast.FunctionDef) and (
                not node.name.startswith("_") or node.name == "__init__"):
            yield node


class Hints(unittest.TestCase):
    def test_public_functions_have_them(self):
        for folder in (os.path.join(TOOLS, "steerlib"), os.path.join(TOOLS, "steerlib/programs")):
            for name in sorted(os.listdir(folder)):
                if not name.endswith(".py"):
                    continue
                for function in public_functions(ast.parse(text_of(folder, name))):
                    words = function.args.args + function.args.kwonlyargs
                    bare = [word.arg for word in words
                            if word.annotation is None and word.arg != "self"]
                    self.assertEqual((bare, function.returns is None), ([], False),
                                     (name, function.name))


class Installed(unittest.TestCase):
    def setUp(self):
        python = builder()
        if python is None:
            self.skipTest("no python3 with pip, wheel and setuptools 61 or later")
        folder = tempfile.TemporaryDirectory()
        self.addCleanup(folder.cleanup)
        # pip leaves its own files beside the sources, so it gets a copy of them.
        copy = os.path.join(folder.name, "tools")
        shutil.copytree(TOOLS, copy, symlinks=True,
                        ignore=shutil.ignore_patterns("tests", "build", "*.egg-info"))
        self.where = os.path.join(folder.name, "installed")
        command = [python, "-m", "pip", "install", "--quiet", "--no-build-isolation", "--no-deps",
                   "--no-index", "--disable-pip-version-check", "--target", self.where, copy]
        ended = subprocess.run(command, stdout=subprocess.PIPE, stderr=subprocess.STDOUT,
                               cwd=folder.name)
        self.assertEqual(ended.returncode, 0, ended.stdout.decode("utf-8", "replace"))

    def run_installed(self, name, *words, **environment):
        """Status, standard output and standard error of an installed program."""
        ended = subprocess.run([os.path.join(self.where, "bin", name)] + list(words),
                               stdin=subprocess.DEVNULL, stdout=subprocess.PIPE,
                               stderr=subprocess.PIPE, cwd=self.where,
                               env=dict(environment, PYTHONPATH=self.where))
        return ended.returncode, ended.stdout.decode(), ended.stderr.decode()

    def test_all_commands(self):
        path = os.environ.get("PATH", os.defpath)
        self.assertEqual(sorted(os.listdir(os.path.join(self.where, "bin"))), scripts())
        for name in scripts():
            status, out, err = self.run_installed(name, "--help", PATH=path)
            self.assertEqual((status, err), (0, ""), name)
            self.assertTrue(out.startswith("usage: %s " % name), name)
        self.check_steer()
        self.check_page()

    def check_page(self):
        """The page has its style, its script and its library, which are data of the package."""
        path = os.path.join(self.where, "report")
        with open(path, "wb") as out:
            out.write(REPLIED)
        status, out, err = self.run_installed("steer-page", path, PATH="/bin:/usr/bin")
        self.assertEqual((status, err), (0, ""))
        for text in ("@media", "class Charts", "dygraphs 2.2.1, MIT-licenced", "</html>"):
            self.assertIn(text, out)

    def check_steer(self):
        """Where it finds steer: in $STEER, and where that is not set an error that says it."""
        words = ("steer-steps", example("rps.json"), example("web.pcap"), "--pps", "5")
        status, out, err = self.run_installed(*words, PATH="/bin:/usr/bin",
                                              STEER=ENVIRONMENT["STEER"])
        self.assertEqual((status, out[-10:]), (0, '"sweep"]}\n'), err)
        if shutil.which("steer", path="/bin:/usr/bin") is None:
            status, out, err = self.run_installed(*words, PATH="/bin:/usr/bin")
            self.assertEqual((status, out), (3, ""), err)
            self.assertRegex(err, r"^steer-steps: steer: refused: no such program: \$STEER is not "
                                  r"set, the path has none, and there is no \S+/steer\.sh as in a "
                                  r"checkout\n$")


if __name__ == "__main__":
    unittest.main()
