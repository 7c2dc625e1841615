"""What fish completes of a command: what fits at the place, and nothing else. `tools/test packages`
tries bash and zsh too."""

import os
import shutil
import subprocess
import sys
import unittest
from pathlib import Path

from elfmap import build

from tests.made import ENVIRONMENT, FolderCase

sys.path.insert(0, str(build.REPOSITORY / "tools" / "lib"))
from elfmap_tools import man  # noqa: E402

# As the program prints it, which the tests of this package don't need.
HELP = """\
case "$1" in
link)
    printf 'Usage: elfmap link [OPTIONS] FILE...\\n\\nOptions:\\n'
    printf '      --base <B>  the base\\n      --rules <RULES>  the rules\\n' ;;
*)
    printf 'Usage: elfmap <COMMAND>\\n\\nCommands:\\n  show  lists tables\\n  link  links\\n\\n'
    printf 'Options:\\n  -h, --help  Print help\\n' ;;
esac
"""
FILES = {"file.o", "folder/"}


@unittest.skipUnless(shutil.which("fish"), "fish is not installed")
class FishTest(FolderCase):
    def setUp(self):
        super().setUp()
        self.put(**{"work/file__o": b"", "work/folder/a__o": b""})
        scripts = {"elfmap": HELP}
        for it in ("lint", "same"):
            scripts[f"elfmap-{it}"] = f'exec "{sys.executable}" -m elfmap.{it} "$@"\n'
        for name, script in scripts.items():
            self.put(**{f"bin/{name}": f"#!/bin/sh\n{script}".encode()})
            os.chmod(f"bin/{name}", 0o755)
            texts = man.completions(name)
            (place,) = (it for it in texts if it.startswith("fish/"))
            Path(f"{name}.fish").write_text(texts[place])
        path = f"{os.path.abspath('bin')}:{os.environ['PATH']}"
        self.environment = {**ENVIRONMENT, "PATH": path, "HOME": os.getcwd()}

    def completed(self, line):
        """What fish lists for a line, without what is said of each."""
        script = 'for it in ../*.fish; source $it; end; complete -C "$line"'
        words = ["fish", "--no-config", "-c", script]
        ran = subprocess.run(
            words,
            cwd="work",
            env={**self.environment, "line": line},
            capture_output=True,
            text=True,
        )
        self.assertEqual((ran.returncode, ran.stderr), (0, ""))
        return {it.partition("\t")[0] for it in ran.stdout.splitlines()}

    def test_what_fits(self):
        formats = {"text", "jsonl", "sarif", "junit", "github"}
        for line, found in (
            ("elfmap ", {"show", "link"}),
            ("elfmap sh", {"show"}),
            ("elfmap --", {"--help"}),
            ("elfmap link ", FILES),
            ("elfmap link --", {"--base", "--rules"}),
            ("elfmap link --base ", set()),
            ("elfmap link --rules ", FILES),
            ("elfmap-lint ", FILES),
            ("elfmap-lint folder/", {"folder/a.o"}),
            ("elfmap-lint --fo", {"--follow-thin", "--format"}),
            ("elfmap-lint --format ", formats),
            ("elfmap-lint --format s", {"sarif"}),
            ("elfmap-lint --format=", {f"--format={it}" for it in formats}),
            ("elfmap-lint --class32 ", {"warn", "skip", "fail"}),
            ("elfmap-lint --tables ", FILES),
            ("elfmap-lint file.o --ta", {"--tables"}),
            ("elfmap-lint --baseline ", FILES),
            ("elfmap-lint --baseline=f", {"--baseline=file.o", "--baseline=folder/"}),
            ("elfmap-lint --li", {"--link", "--list-rules"}),
            ("elfmap-lint --link --rules ", FILES),
            ("elfmap-lint --link --entry ", set()),
            ("elfmap-lint -j ", set()),
            ("elfmap-lint --ignore ", set()),
            ("elfmap-lint -- -", set()),
            ("elfmap-lint -- f", FILES),
            ("elfmap-same file.o ", FILES),
        ):
            with self.subTest(line=line):
                self.assertEqual(self.completed(line), found)


if __name__ == "__main__":
    unittest.main()
