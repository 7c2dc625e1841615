"""The files of examples/, the action for GitHub and the hook for pre-commit: each is run as the
program that it is for runs it, as far as that goes without a network.
"""

import fnmatch
import json
import os
import re
import shutil
import subprocess
import sys
import tarfile
import tempfile
import unittest
from pathlib import Path
from xml.etree import ElementTree

from elfmap import build

from tests.made import ENVIRONMENT, GOOD, PACKAGE, SHARING, setUpModule  # noqa: F401

EXAMPLES = PACKAGE / "examples"
HOOKS = build.REPOSITORY / ".pre-commit-hooks.yaml"
ACTION = build.REPOSITORY / "action.yml"
READ_YAML = "import json, sys, yaml; json.dump(yaml.safe_load(sys.stdin), sys.stdout)"
MAKEFILE = "all:\n\tmkdir -p build\n\tcp made.o build/made.o\n"


class Case(unittest.TestCase):
    """A folder, with elfmap-lint on the PATH."""

    def setUp(self):
        folder = tempfile.TemporaryDirectory(prefix="elfmap-examples-test-")
        self.addCleanup(folder.cleanup)
        self.folder = Path(folder.name)
        program = self.folder / "bin/elfmap-lint"
        program.parent.mkdir()
        program.write_text(f'#!/bin/sh\nexec "{sys.executable}" -m elfmap.lint "$@"\n')
        program.chmod(0o755)
        self.env = {
            **ENVIRONMENT,
            "PATH": f"{program.parent}:{os.environ['PATH']}",
            "HOME": folder.name,
            "GIT_CONFIG_NOSYSTEM": "1",
        }
        for it in ("AUTHOR", "COMMITTER"):
            self.env.update({f"GIT_{it}_NAME": "test", f"GIT_{it}_EMAIL": "test@example.org"})

    def run_in(self, folder, *words, **more):
        ran = subprocess.run(
            words,
            cwd=folder,
            env={**self.env, **more},
            stdin=subprocess.DEVNULL,
            stdout=subprocess.PIPE,
            stderr=subprocess.STDOUT,
        )
        return ran.returncode, ran.stdout.decode(errors="replace")


@unittest.skipUnless(
    all(map(shutil.which, ("git", "pre-commit"))), "git or pre-commit is not installed"
)
class PreCommitTest(Case):
    def repository(self, name, files):
        """A repository with one commit."""
        folder = self.folder / name
        folder.mkdir()
        for path, content in files.items():
            (folder / path).write_bytes(content)
        for words in (["init", "-q"], ["add", "."], ["commit", "-q", "-m", "files"]):
            self.assertEqual(self.run_in(folder, "git", *words), (0, ""))
        return folder, self.run_in(folder, "git", "rev-parse", "HEAD")[1].strip()

    def test_the_hook(self):
        hook, commit = self.repository("hook", {".pre-commit-hooks.yaml": HOOKS.read_bytes()})
        config = f"repos:\n- repo: {hook}\n  rev: {commit}\n  hooks:\n  - id: elfmap-lint\n"
        files = {
            ".pre-commit-config.yaml": config.encode(),
            "good.o": GOOD,
            "--version": b"no ELF file, and no option\n",
        }
        folder, _ = self.repository("project", files)
        status, out = self.run_in(folder, "pre-commit", "run", "--all-files")
        self.assertEqual(status, 0, out)
        (folder / "bad.o").write_bytes(SHARING)
        self.run_in(folder, "git", "add", "bad.o")
        status, out = self.run_in(folder, "pre-commit", "run")
        self.assertEqual(status, 1, out)
        self.assertIn("bad.o: offset 0x72: SHARED_BYTE (33): ", out)
        # Options of one's own.
        own = config + "    args: [--ignore, '33', --]\n"
        (folder / ".pre-commit-config.yaml").write_text(own)
        self.run_in(folder, "git", "add", ".")
        self.assertEqual(self.run_in(folder, "pre-commit", "run", "--all-files")[0], 0)


class WorkflowTest(Case):
    def steps(self, name, lead):
        """The commands of a workflow that need no release, each as a shell runs it."""
        text = (EXAMPLES / name).read_text(encoding="utf-8")
        return [it for it in re.findall(lead, text, re.M) if "$ARCHIVE" not in it]

    def run_steps(self, steps, content):
        folder = self.folder / "project"
        shutil.rmtree(folder, ignore_errors=True)
        folder.mkdir()
        (folder / "Makefile").write_text(MAKEFILE)
        (folder / "made.o").write_bytes(content)
        # The workflow for GitHub names the command of a release; here it is the one that the tests
        # have.
        steps = [it.replace("elfmap/bin/elfmap-lint", "elfmap-lint") for it in steps]
        return self.run_in(folder, "bash", "-e", "-c", "\n".join(steps))

    def test_github(self):
        steps = self.steps("lint-workflow.yml", r"^ +- run: (.*)$")
        self.assertEqual(len(steps), 2)
        self.assertEqual(self.run_steps(steps, GOOD)[0], 0)
        status, out = self.run_steps(steps, SHARING)
        self.assertEqual(status, 1)
        self.assertIn("\n::error file=build/made.o,title=SHARED_BYTE (33)::", out)

    def test_gitlab(self):
        steps = self.steps("gitlab-ci.yml", r"^    - (.*)$")
        self.assertEqual(len(steps), 2)
        self.assertEqual(self.run_steps(steps, SHARING)[0], 1)
        found = ElementTree.parse(self.folder / "project/elfmap-lint.xml").getroot()
        self.assertEqual([it.get("name") for it in found.iter("testcase")], ["build/made.o"])
        self.assertEqual(self.run_steps(steps, GOOD)[0], 0)


def has_yaml():
    """Whether Debian's Python reads YAML."""
    ran = subprocess.run(["/usr/bin/python3", "-c", "import yaml"], stderr=subprocess.DEVNULL)
    return not ran.returncode


@unittest.skipUnless(Path("/usr/bin/python3").exists() and has_yaml(), "python3-yaml: not there")
class ActionTest(Case):
    """The steps of the action, as GitHub runs them: by bash, with what is said of each in `env`,
    and what a step adds to the PATH."""

    def setUp(self):
        super().setUp()
        said = subprocess.run(
            ["/usr/bin/python3", "-c", READ_YAML],
            input=ACTION.read_bytes(),
            stdout=subprocess.PIPE,
            check=True,
        ).stdout
        self.action = json.loads(said)
        self.project = self.folder / "project"
        self.project.mkdir()
        self.added = self.folder / "path"
        self.added.write_text("")

    def inputs(self, **given):
        defaults = {name: it.get("default", "") for name, it in self.action["inputs"].items()}
        self.assertLessEqual(set(given), set(defaults))
        return {**defaults, **given}

    def run_action(self, **given):
        inputs = self.inputs(**given)
        said = ""
        for step in self.action["runs"]["steps"]:
            if step.get("if") == "inputs.archive != ''" and not inputs["archive"]:
                continue
            self.assertEqual(step["shell"], "bash")
            env = {
                name: re.sub(r"\$\{\{ inputs\.(\w+) \}\}", lambda it: inputs[it[1]], value)
                for name, value in step["env"].items()
            }
            path = ":".join([*self.added.read_text().split(), self.env["PATH"]])
            env.update(RUNNER_TEMP=str(self.folder), GITHUB_PATH=str(self.added), PATH=path)
            shell = ["bash", "--noprofile", "--norc", "-eo", "pipefail", "-c", step["run"]]
            status, out = self.run_in(self.project, *shell, **env)
            said += out
            if status:
                return status, said
        return 0, said

    def test_what_github_asks_for(self):
        self.assertEqual(self.action["runs"]["using"], "composite")
        self.assertEqual(set(self.action), {"name", "description", "inputs", "runs"})
        self.assertEqual(
            [it for it in self.action["inputs"].values() if it.get("required")],
            [self.action["inputs"]["paths"]],
        )

    def test_findings(self):
        (self.project / "a b").mkdir()
        (self.project / "a b/bad.o").write_bytes(SHARING)
        (self.project / "-good.o").write_bytes(GOOD)
        self.assertEqual(self.run_action(paths="-good.o\n")[0], 0)
        status, out = self.run_action(paths="a b\n\n-good.o")
        self.assertEqual(status, 1)
        self.assertTrue(out.startswith("::error file=a b/bad.o,title=SHARED_BYTE (33)::"), out)
        given = {"paths": "a b", "options": "--ignore\n33:a b/*\n"}
        self.assertEqual(self.run_action(**given)[0], 0)
        self.assertEqual(self.run_action(paths="none")[0], 3)

    def test_of_a_release(self):
        """Its commands are found before any other."""
        release = self.folder / "release/bin"
        release.mkdir(parents=True)
        (release / "elfmap-lint").write_text('#!/bin/sh\necho released "$@"\n')
        (release / "elfmap-lint").chmod(0o755)
        with tarfile.open(self.folder / "elfmap.tgz", "w:gz") as it:
            it.add(release.parent, "elfmap-1-x86_64-linux")
        given = {"archive": str(self.folder / "elfmap.tgz"), "paths": "a"}
        words = "released --format github --tables -- a\n"
        self.assertEqual(self.run_action(**given), (0, words))
        given["archive"] = str(self.folder / "none.tgz")
        self.assertNotEqual(self.run_action(**given)[0], 0)


class DockerfileTest(Case):
    def instructions(self):
        """The instructions of the file, each in one line."""
        lines = (EXAMPLES / "Dockerfile").read_text(encoding="utf-8").replace("\\\n", "")
        found = [it.partition(" ") for it in lines.splitlines() if not it.startswith("#")]
        return [(name, words) for name, _, words in found]

    def test_what_is_copied(self):
        """Each pattern fits one of the packages of a release, and apt gets all of them."""
        sys.path.insert(0, str(build.REPOSITORY / "tools/lib"))
        from elfmap_tools import package_files

        names = [
            f"{name}_0.1.0_{machine}.deb"
            for name in package_files.PACKAGES
            for machine in ("amd64", "all")
        ]
        (words,) = (words for name, words in self.instructions() if name == "COPY")
        *patterns, folder = words.split()
        for it in patterns:
            self.assertEqual(len(fnmatch.filter(names, it)), 1, it)
        (command,) = (words for name, words in self.instructions() if name == "RUN")
        self.assertIn(f" {folder}*.deb ", command)
        self.assertEqual(self.run_in(self.folder, "sh", "-n", "-c", command), (0, ""))

    def test_what_is_run(self):
        """The entry point, with the words that are there by default, prints help."""
        own = dict(self.instructions())
        words = json.loads(own["ENTRYPOINT"]) + json.loads(own["CMD"])
        status, out = self.run_in(self.folder, *words)
        self.assertEqual((status, out.startswith("usage: elfmap-lint ")), (0, True))


CONTROL = """\
Source: made
Maintainer: test <test@example.org>
Build-Depends: debhelper-compat (= 13)
Rules-Requires-Root: no

Package: made
Architecture: any
Description: made
"""
CHANGELOG = """\
made (1) unstable; urgency=low

  * Made.

 -- test <test@example.org>  Mon, 01 Jan 2024 00:00:00 +0000
"""


@unittest.skipUnless(shutil.which("dh"), "debhelper is not installed")
class DebhelperTest(Case):
    def setUp(self):
        super().setUp()
        own = self.folder / "perl/Debian/Debhelper/Sequence"
        own.mkdir(parents=True)
        shutil.copy(EXAMPLES / "elfmap.pm", own)
        shutil.copy(EXAMPLES / "dh_elfmap_lint", self.folder / "bin")
        self.env["PERL5LIB"] = str(self.folder / "perl")
        self.source = self.folder / "made-1"
        (self.source / "debian/made/usr/lib").mkdir(parents=True)
        (self.source / "debian/made/DEBIAN").mkdir()
        for name, content in (("control", CONTROL), ("changelog", CHANGELOG)):
            (self.source / "debian" / name).write_text(content)

    def test_the_command(self):
        made = self.source / "debian/made"
        (made / "usr/lib/good.o").write_bytes(GOOD)
        # It is no file of the package.
        (made / "DEBIAN/bad.o").write_bytes(SHARING)
        status, out = self.run_in(self.source, "dh_elfmap_lint")
        self.assertEqual((status, out.splitlines()[-1]), (0, "0 findings in 0 of 1 ELF file"))
        (made / "usr/lib/bad.o").write_bytes(SHARING)
        status, out = self.run_in(self.source, "dh_elfmap_lint")
        self.assertNotEqual(status, 0)
        self.assertIn("debian/made/usr/lib/bad.o: offset 0x72: SHARED_BYTE (33): ", out)
        words = ["dh_elfmap_lint", "--", "--ignore", "33"]
        self.assertEqual(self.run_in(self.source, *words)[0], 0)

    def test_the_sequence(self):
        """After dh_strip, if it is asked for."""
        for words, is_run in (["--with", "elfmap"], True), ([], False):
            status, out = self.run_in(self.source, "dh", "binary", "--no-act", *words)
            self.assertEqual(status, 0, out)
            names = [it.split()[0] for it in out.splitlines()]
            self.assertEqual("dh_elfmap_lint" in names, is_run, names)
            if is_run:
                at = names.index("dh_elfmap_lint")
                self.assertLess(names.index("dh_strip"), at)
                self.assertLess(at, names.index("dh_builddeb"))


if __name__ == "__main__":
    unittest.main()
