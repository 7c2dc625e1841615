"""elfmap-lint: what it writes for other programs is read by one of them.

SARIF is validated by python3-jsonschema and the schema of the OASIS committee (see data/).
JUnit XML is read by python3-junitparser. Both are packages of Debian's python3.
"""

import json
import os
import subprocess
import unittest
from pathlib import Path

from tests.made import (
    BROKEN_SYMBOLS,
    GNU,
    GOOD,
    LONG,
    SHARING,
    Made,
    setUpModule,
    text,
)  # noqa: F401
from tests.test_lint import Case

DEBIAN_PYTHON = "/usr/bin/python3"
SCHEMA = Path(__file__).resolve().parent / "data/sarif-2.1.0-rtm.4.json"
VALIDATE = """
import json, sys, jsonschema
schema, log = (json.load(open(it)) for it in sys.argv[1:])
jsonschema.Draft4Validator.check_schema(schema)
validator = jsonschema.Draft4Validator(schema, format_checker=jsonschema.FormatChecker())
for error in validator.iter_errors(log):
    print(list(error.absolute_path), error.message[:200])
"""
READ = """
import json, sys
from junitparser import Error, Failure, JUnitXml
xml = JUnitXml.fromfile(sys.argv[1])
cases = {}
for suite in xml:
    for case in suite:
        cases[case.name] = [[type(it).__name__, it.type, it.message] for it in case.result]
counts = [xml.tests, xml.failures, xml.errors]
print(json.dumps({"counts": counts, "suites": [it.name for it in xml], "cases": cases}))
"""


def has(module):
    """Whether Debian's python3 has a module."""
    try:
        ran = subprocess.run([DEBIAN_PYTHON, "-c", f"import {module}"], capture_output=True)
        return ran.returncode == 0
    except OSError:
        return False


def read_by(script, *paths):
    ran = subprocess.run(
        [DEBIAN_PYTHON, "-c", script, *map(str, paths)], capture_output=True, text=True
    )
    assert ran.returncode == 0, ran.stderr
    return ran.stdout


class ReaderTest(Case):
    def setUp(self):
        super().setUp()
        os.mkdir("a")
        self.put(
            **{
                "a/bad__o": SHARING,
                "a/lib__a": GNU,
                "a/good__o": GOOD,
                "a/symbols__o": BROKEN_SYMBOLS,
            }
        )
        self.put(
            **{"a/short__o": GOOD[:63], "a/aligned__o": Made(text()).with_field(1, "align", 3)}
        )
        self.put(**{"a/thread__o": bytes(Made((b".tdata", 1, bytes(4), dict(flags=0x403))).data)})
        Path(os.fsdecode(b"a/\xff<&\"'>\x01%.o")).write_bytes(SHARING)

    def report(self, format, *words):
        status, out, _ = self.lint("--format", format, "--tables", "--object", *words)
        Path("report").write_bytes(out)
        return status


@unittest.skipUnless(has("jsonschema"), "python3-jsonschema is not installed")
class SarifTest(ReaderTest):
    def faults(self):
        return read_by(VALIDATE, SCHEMA, "report").splitlines()

    def test_findings(self):
        self.assertEqual(self.report("sarif", "a", "none"), 3)
        self.assertEqual(self.faults(), [])
        self.assertEqual(len(json.loads(Path("report").read_bytes())["runs"][0]["results"]), 7)

    def test_no_findings(self):
        self.assertEqual(self.report("sarif", "a/good.o"), 0)
        self.assertEqual(self.faults(), [])

    def test_the_validator_finds_faults(self):
        self.report("sarif", "a")
        log = json.loads(Path("report").read_bytes())
        log["runs"][0]["results"][0]["level"] = "fatal"
        log["runs"][0]["more"] = 1
        Path("report").write_text(json.dumps(log))
        self.assertEqual(len(self.faults()), 2)


@unittest.skipUnless(has("junitparser"), "python3-junitparser is not installed")
class JunitTest(ReaderTest):
    def test_findings(self):
        self.assertEqual(self.report("junit", "a", "none"), 3)
        found = json.loads(read_by(READ, "report"))
        cases = found["cases"]
        member = f"a/lib.a({LONG.decode()})"
        names = {
            "a/aligned.o",
            "a/bad.o",
            "a/good.o",
            "a/lib.a(good.o)",
            member,
            "a/short.o",
            "a/symbols.o",
            "a/thread.o",
            "a/\\xff<&\"'>\\x01%.o",
            "none",
        }
        self.assertEqual((set(cases), found["suites"]), (names, ["elfmap-lint"]))
        self.assertEqual(found["counts"], [10, 7, 1])
        ((kind, rule, message),) = cases["a/bad.o"]
        self.assertEqual(
            (kind, rule, message[:32]),
            ("Failure", "SHARED_BYTE", "offset 0x72: SHARED_BYTE (33): t"),
        )
        ((kind, rule, message),) = cases["a/thread.o"]
        self.assertEqual(
            (kind, rule, message[-34:]), ("Failure", "TLS", "thread-local storage is not linked")
        )
        self.assertEqual((cases["a/good.o"], cases["none"][0][:2]), ([], ["Error", "unreadable"]))

    def test_no_findings(self):
        self.assertEqual(self.report("junit", "a/good.o"), 0)
        self.assertEqual(json.loads(read_by(READ, "report"))["counts"], [1, 0, 0])


if __name__ == "__main__":
    unittest.main()
