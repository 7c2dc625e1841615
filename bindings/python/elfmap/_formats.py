"""A report as text, as lines of JSON, as SARIF 2.1.0, as JUnit XML, and for GitHub."""

from __future__ import annotations

import hashlib
import json
from collections import Counter
from collections.abc import Callable, Iterable, Iterator
from itertools import groupby
from typing import Any
from urllib.parse import quote_from_bytes

from elfmap import __version__
from elfmap._findings import NOWHERE, Finding, Report, Rule, Unread
from elfmap._origin import Origin
from elfmap._suppressed import Known, known
from elfmap._words import one_line, printable, visible

# What ends a record: a line feed, or a zero byte.
Format = Callable[[Report, bytes], Iterable[bytes]]
_TOO_SHORT = Rule(False, 2)
# The number is another one if another thing is hashed.
_FINGERPRINT = "elfmapFinding/v1"
_SARIF_SCHEMA = "https://json.schemastore.org/sarif-2.1.0.json"
# How files are called that are skipped: those that are no ELF files, of class 32, and no files.
_SKIPPED = ("not ELF", "of class 32", "not regular")


def _encoded(text: str) -> bytes:
    return text.encode("utf-8", "backslashreplace")


def counted(count: int, what: str) -> str:
    return f"{count} {what}" if count == 1 else f"{count} {what}s"


def summary_words(report: Report) -> str:
    it = report.summary()
    counts = (it["not_elf"], it["class_32"], it["not_regular"])
    skipped = ", ".join(f"{count} {what}" for count, what in zip(counts, _SKIPPED) if count)
    known = ", ".join(f"{count} {name}" for name, count in it["known_deviations"].items())
    files = counted(it["checked"], "ELF file")
    words = f"{counted(it['findings'], 'finding')} in {it['files_with_findings']} of {files}"
    if it["suppressed"]:
        words += f", {it['suppressed']} suppressed"
    if known:
        words += f"; known deviations: {known}"
    if skipped:
        words += f"; skipped: {skipped}"
    if it["unreadable"]:
        words += f"; {it['unreadable']} unreadable"
    if "links" in it:
        words += "; they link" if it["links"] else "; they do not link"
    return words


def sentence(finding: Finding) -> str:
    return f"offset {finding.offset:#x}: {finding.name} ({finding.rule.words}): {finding.message}"


# ---- Records, each by itself


def text(report: Report, end: bytes) -> Iterator[bytes]:
    for it in report.findings:
        path = it.path if end == b"\0" else one_line(it.path)
        yield path + b": " + _encoded(sentence(it)) + end
    yield _encoded(summary_words(report)) + end


def _path_of(path: bytes) -> dict[str, str]:
    """A path for JSON, and its bytes where these are no UTF-8."""
    try:
        return {"path": path.decode("utf-8")}
    except UnicodeDecodeError:
        return {"path": path.decode("utf-8", "backslashreplace"), "path_hex": path.hex()}


def jsonl(report: Report, end: bytes) -> Iterator[bytes]:
    for it in report.findings:
        numbers = {"offset": it.offset, "rule": it.rule.key, "name": it.name}
        words = {"sections": list(it.sections), "message": it.message}
        yield _json({**_path_of(it.path), **numbers, **words, **_origin(it.origin)}) + end
    for lost in report.unreadable:
        yield _json({**_path_of(lost.path), "unreadable": lost.reason}) + end
    yield _json({"summary": report.summary()}) + end


def _origin(it: Origin) -> dict[str, Any]:
    """Where the file comes from; what is not known is left out."""
    found = {"machine": it.machine, "producers": list(it.producers), "build_id": it.build_id}
    return {key: value for key, value in found.items() if value}


def _json(value: dict[str, Any]) -> bytes:
    return json.dumps(value).encode("ascii")


def github(report: Report, end: bytes) -> Iterator[bytes]:
    """Workflow commands, of which each becomes an annotation."""
    for it in report.findings:
        message = f"{printable(it.path)}: {sentence(it)}"
        yield _command(it.rule.level, it.file, f"{it.name} ({it.rule.words})", message) + end
    for lost in report.unreadable:
        message = f"{printable(lost.path)}: {lost.reason}"
        yield _command("error", lost.path, "unreadable", message) + end
    yield _encoded(summary_words(report)) + end


def _command(level: str, path: bytes, title: str, message: str) -> bytes:
    def escaped(words: str, more: str = "") -> str:
        return "".join(f"%{ord(it):02X}" if it in "%\r\n" + more else it for it in words)

    # Those signs are escaped as the file's own, and a backslash is as it is, so that the file is
    # found. One with others that can't be printed is not.
    own = escaped(path.decode("utf-8", "surrogateescape"), ":,")
    file = visible(own.encode("utf-8", "surrogateescape")).decode("utf-8")
    words = f"file={file},title={escaped(title, ':,')}::{escaped(message)}"
    return _encoded(f"::{level} {words}")


# ---- SARIF


def sarif(report: Report, end: bytes) -> Iterator[bytes]:
    rules = sorted({(it.rule, it.name) for it in report.findings})
    positions = {rule: position for position, (rule, _) in enumerate(rules)}
    driver = {
        "name": "elfmap-lint",
        "version": __version__,
        "rules": [_sarif_rule(rule, name) for rule, name in rules],
    }
    invocation = {
        "executionSuccessful": not report.unreadable,
        "toolExecutionNotifications": [_notification(it) for it in report.unreadable],
    }
    results = [
        _sarif_result(it, positions[it.rule], fingerprint)
        for it, fingerprint in zip(report.findings, _fingerprints(report.findings))
    ]
    run = {
        "tool": {"driver": driver},
        "invocations": [invocation],
        "results": results,
        "properties": report.summary(),
    }
    document = {"$schema": _SARIF_SCHEMA, "version": "2.1.0", "runs": [run]}
    yield json.dumps(document, indent=1).encode("ascii")
    yield b"\n"


def _sarif_rule(rule: Rule, name: str) -> dict[str, Any]:
    words = {"id": name}
    if rule.number not in rule.table:
        return words
    _, sentence, advice = rule.table[rule.number]
    kind = "warning" if rule.is_warning else "link rule" if rule.is_of_link else "rule"
    return {
        **words,
        "shortDescription": {"text": f"{kind} {rule.number}: {sentence}"},
        "help": {"text": f"{advice}; see {rule.place}"},
        "defaultConfiguration": {"level": rule.level},
    }


def _fingerprints(findings: Iterable[Finding]) -> Iterator[str]:
    """Of each finding what stays the same where its file is built again, and differs from that of
    any other one."""
    seen = Counter[Known]()
    for it in findings:
        own = known(it)
        yield hashlib.sha256(json.dumps([*own, seen[own]]).encode("ascii")).hexdigest()
        seen[own] += 1


def _sarif_result(it: Finding, position: int, fingerprint: str) -> dict[str, Any]:
    place: dict[str, Any] = _artifact(it.file)
    if it.start != NOWHERE:
        # A file that is too short has no byte there.
        length = {} if it.rule == _TOO_SHORT else {"byteLength": 1}
        place["region"] = {"byteOffset": it.start + it.offset, **length}
    location: dict[str, Any] = {"physicalLocation": place}
    # The schema asks for locations that differ; the names of sections need not.
    names = [{"name": name, "kind": "section"} for name in dict.fromkeys(it.sections)]
    member = [{"name": printable(it.path), "kind": "member"}] if it.path != it.file else []
    if names or member:
        location["logicalLocations"] = [*member, *names]
    message = {"text": f"offset {it.offset:#x}: {it.message}"}
    return {
        "ruleId": it.name,
        "ruleIndex": position,
        "level": it.rule.level,
        "message": message,
        "locations": [location],
        "partialFingerprints": {_FINGERPRINT: fingerprint},
    }


def _notification(it: Unread) -> dict[str, Any]:
    location = {"physicalLocation": _artifact(it.path)}
    message = {"text": f"{printable(it.path)}: {it.reason}"}
    return {"level": "error", "message": message, "locations": [location]}


def _artifact(path: bytes) -> dict[str, Any]:
    """A path as a URI: an absolute one with its scheme, any other one relative."""
    scheme = "file://" if path.startswith(b"/") else ""
    return {"artifactLocation": {"uri": scheme + quote_from_bytes(path, safe="/")}}


# ---- JUnit


def junit(report: Report, end: bytes) -> Iterator[bytes]:
    """A testcase for each file and each member that was checked, or can't be read."""
    findings = {path: list(it) for path, it in groupby(report.findings, lambda it: it.path)}
    unreadable = {path: list(it) for path, it in groupby(report.unreadable, lambda it: it.path)}
    names = sorted({*report.names, *findings, *unreadable})
    counts = f'tests="{len(names)}" failures="{len(findings)}" errors="{len(unreadable)}"'
    yield b'<?xml version="1.0" encoding="UTF-8"?>\n'
    yield _encoded(f'<testsuites {counts}>\n<testsuite name="elfmap-lint" {counts}>\n')
    properties = [(f"known_deviations.{name}", it) for name, it in sorted(report.known.items())]
    if report.links is not None:
        properties.append(("links", int(report.links)))
    if properties:
        lines = (f'<property name="{name}" value="{it}"/>\n' for name, it in properties)
        yield _encoded("<properties>\n" + "".join(lines) + "</properties>\n")
    for path in names:
        yield _encoded(_testcase(path, findings.get(path, []), unreadable.get(path, [])))
    yield b"</testsuite>\n</testsuites>\n"


def _testcase(path: bytes, findings: list[Finding], unreadable: list[Unread]) -> str:
    case = f'<testcase classname="elfmap-lint" name="{_xml(printable(path))}"'
    inner = ""
    if findings:
        lines = "\n".join(_xml(sentence(it)) for it in findings)
        first = f'type="{findings[0].name}" message="{_xml(sentence(findings[0]))}"'
        inner += f"<failure {first}>{lines}</failure>"
    if unreadable:
        reasons = _xml("; ".join(it.reason for it in unreadable))
        inner += f'<error type="unreadable" message="{reasons}"/>'
    return f"{case}>{inner}</testcase>\n" if inner else f"{case}/>\n"


def _xml(words: str) -> str:
    for letter, escaped in (("&", "&amp;"), ("<", "&lt;"), (">", "&gt;"), ('"', "&quot;")):
        words = words.replace(letter, escaped)
    return words


FORMATS: dict[str, Format] = {
    "text": text,
    "jsonl": jsonl,
    "sarif": sarif,
    "junit": junit,
    "github": github,
}
# Those of one record a line, or a zero byte.
OF_RECORDS = ("text", "jsonl", "github")
