"""A comparison of builds for other programs: JSON, JUnit's XML, and SARIF."""

import json
import pathlib
from collections.abc import Iterator
from xml.etree import ElementTree

from lab import chance
from lab.shown_by import Commands, commands_of, folder_of
from lab.compare import BACK, TOLD, Comparison, Row, milliseconds
from lab.doubts import doubts
from lab.fail_on import FailOn
from lab.first_seen import FIRST
from lab.known_until import Known
from lab.sides import Seen
from lab.slower import Row as Timed
from lab.uncounted import refused, uncounted
from viewer.defects.changes import GROWN, NEW, SAME, WORSE
from viewer.defects.times import SLOWER
from viewer.files import whole_file
from viewer.terminal import line_of, shown


def write(text: str, path: str) -> None:
    """Writes a report whole or not at all, in place of an earlier one."""
    with whole_file(pathlib.Path(path), may_replace=lambda: True) as made:
        made.write_text(text, "utf-8")


def commands(compared: Comparison, path: str) -> Iterator[str]:
    """A line for each defect that is first seen, with the command that shows it."""
    for row in compared.of(FIRST):
        yield line_of("shown by", row.key, *(command for command in commands_for(compared, row, path) if command))


def commands_for(compared: Comparison, row: Row, path: str) -> Commands:
    """What to type in the folder of the lab to see a defect in the capture that shows it best."""
    best = compared.shown_by(row)
    return commands_of(folder_of(path), f"{best.build}/{best.device}", best.file, best.place)


def interval_of(interval: chance.Interval | None) -> dict[str, float] | None:
    return None if interval is None else interval._asdict()


def side_of(compared: Comparison, seen: Seen, is_new: bool) -> dict[str, object]:
    captures = compared.sides.new if is_new else compared.sides.old
    return {"captures": seen.captures, "of_captures": captures,
            "share": interval_of(chance.share_of(seen.captures, captures)), "real": seen.real, "devices": seen.devices,
            "findings": sum(seen.n.values()), "an_hour": interval_of(compared.sides.rate(seen, is_new))}


def defect_of(compared: Comparison, row: Row, failed: set[str]) -> dict[str, object]:
    known = compared.known.get(row.key)
    more: dict[str, object] = {}
    if compared.whats[row.key] == GROWN:
        more["growth"] = compared.growth(row)
    if compared.whats[row.key] == FIRST:
        more["shown_by"] = compared.shown_by(row)._asdict()
    return {"what": compared.whats[row.key], "fails": row.key in failed, "key": row.key, "verdict": row.verdict,
            "kind": row.kind, "who": row.who, "path": row.path, "p": row.p, "p_captures": row.p_captures,
            "p_real": row.p_real, "p_an_hour": row.p_rate, "known": known and known._asdict(),
            "before": side_of(compared, row.before, False), "now": side_of(compared, row.now, True), **more}


def method_of(compared: Comparison, row: Timed, failed: set[str]) -> dict[str, object]:
    known = compared.known.get(row.method.key)
    return {"what": compared.became(row) or SAME, "fails": row.method.key in failed, "key": row.method.key,
            **row.method._asdict(), "factor": row.factor, "load": row.load, "p": row.p,
            "known": known and known._asdict(), "before": row.before._asdict(), "now": row.now._asdict()}


def as_json(compared: Comparison, also_same: bool, fail_on: FailOn) -> str:
    """All that the lines say, and the answers of the tests."""
    failed = set(compared.failed(fail_on))
    rows = [row for what in compared.counts() for row in compared.of(what) if also_same or what in TOLD]
    *old, new = compared.builds
    return json.dumps({
        "old": [build._asdict() for build in old], "new": new._asdict(), "rate": compared.rate,
        "largest_p": max(compared.limit, 0.0), "tests": compared.tests,
        "power": [one._asdict() for one in compared.powers()], "counts": compared.counts(),
        "doubts": list(doubts(compared)),
        "uncounted": [one._asdict() for one in uncounted(compared.builds)],
        "defects": [defect_of(compared, row, failed) for row in rows],
        "methods": [method_of(compared, row, failed) for row in compared.timed
                    if also_same or compared.became(row)]}, indent=1) + "\n"


# ---- JUnit

TELLS = (NEW, WORSE, BACK)


def said_of(compared: Comparison, row: Row) -> str:
    """What a case says of its defect."""
    before, now = row.before, row.now
    return shown(f"{compared.whats[row.key]}, {row.verdict}: {row.kind}, {row.who}, {row.path}: {before.captures} of"
                 f" {compared.sides.old} captures before, {now.captures} of {compared.sides.new} now, p {row.p:.2g}")


def said_of_known(known: Known) -> str:
    return " ".join(filter(None, (str(known), known.whose, known.comment)))


def put_errors(suite: ElementTree.Element, compared: Comparison) -> int:
    """A case with an error for each capture of the new build that does not count, and one for all that are missing."""
    new = uncounted(compared.builds)[-1]
    errors = [(f"{one.device}/{one.file}", one.how, one.why) for one in refused(compared.sides.lab, new.build)]
    if new.missing:
        errors.append((f"{new.missing} captures", "missing", str(new)))
    for name, how, why in errors:
        case = ElementTree.SubElement(suite, "testcase", classname=shown(f"captures of {new.build}"), name=shown(name))
        ElementTree.SubElement(case, "error", type=how, message=shown(why))
    return len(errors)


def said_of_method(compared: Comparison, row: Timed) -> str:
    method = row.method
    return shown(f"{compared.became(row)}: {method.part} of {method.server}, {method.call}:"
                 f" {milliseconds(row.before.ns)} ms before, {milliseconds(row.now.ns)} ms now, p {row.p:.2g}")


def put_methods(suite: ElementTree.Element, compared: Comparison, failed: set[str]) -> int:
    """A case for each part of the time of a method. Returns how many are skipped, because they are known."""
    skipped = 0
    for row in compared.timed:
        method, key = row.method, row.method.key
        case = ElementTree.SubElement(suite, "testcase", classname=shown(method.server),
                                      name=shown(f"{method.part}, {method.call} [{key}]"))
        if key in failed:
            ElementTree.SubElement(case, "failure", type=SLOWER, message=said_of_method(compared, row))
        elif compared.holds(key):
            skipped += 1
            ElementTree.SubElement(case, "skipped", message=shown(said_of_known(compared.known[key])))
        elif compared.became(row):
            ElementTree.SubElement(case, "system-out").text = said_of_method(compared, row)
    return skipped


def as_junit(compared: Comparison, fail_on: FailOn) -> str:
    """A case for each defect of both sides, and for each method: what fails has failed, and what is known is skipped.
    And one with an error for each capture that does not count."""
    failed = set(compared.failed(fail_on))
    *old, new = (build.name for build in compared.builds)
    suite = ElementTree.Element("testsuite", name=shown(f"binder_audit: {new} against {' '.join(old)}"))
    skipped = 0
    for row in sorted(compared.rows, key=lambda it: (it.kind, it.who, it.path)):
        case = ElementTree.SubElement(suite, "testcase", classname=shown(row.who),
                                      name=shown(f"{row.kind}, {row.path} [{row.key}]"))
        if row.key in failed:
            ElementTree.SubElement(case, "failure", type=compared.whats[row.key], message=said_of(compared, row))
        elif compared.holds(row.key):
            skipped += 1
            ElementTree.SubElement(case, "skipped", message=shown(said_of_known(compared.known[row.key])))
        elif compared.whats[row.key] in TOLD:
            ElementTree.SubElement(case, "system-out").text = said_of(compared, row)
    skipped += put_methods(suite, compared, failed)
    errors = put_errors(suite, compared)
    tests = len(compared.rows) + len(compared.timed) + errors
    for name, count in (("tests", tests), ("failures", len(failed)), ("errors", errors), ("skipped", skipped)):
        suite.set(name, str(count))
    ElementTree.indent(suite)
    return f'<?xml version="1.0" encoding="UTF-8"?>\n{ElementTree.tostring(suite, encoding="unicode")}\n'


# ---- SARIF


def sarif_result(compared: Comparison, row: Row) -> dict[str, object]:
    best = compared.shown_by(row)
    physical: dict[str, object] = {"artifactLocation": {"uri": shown(f"{best.build}/{best.device}/{best.file}")}}
    if best.place is not None:
        physical["region"] = {"byteOffset": best.place}
    return {"ruleId": row.kind, "level": "error" if row.verdict == "real" else "warning",
            "message": {"text": said_of(compared, row)}, "partialFingerprints": {"defect/v1": row.key},
            "locations": [{"physicalLocation": physical}],
            "suppressions": [{"kind": "external", "justification": shown(said_of_known(known))}]
            if (known := compared.known.get(row.key)) and compared.holds(row.key) else []}


def as_sarif(compared: Comparison, fail_on: FailOn) -> str:
    """What is new, worse or back, and what else fails, each with a capture of the new build. What is known is
    suppressed."""
    failed = set(compared.failed(fail_on))
    rows = [row for what in TOLD for row in compared.of(what) if what in TELLS or row.key in failed]
    driver = {"name": "binder_audit", "rules": [{"id": kind} for kind in dict.fromkeys(row.kind for row in rows)]}
    run = {"tool": {"driver": driver}, "results": [sarif_result(compared, row) for row in rows]}
    return json.dumps({"$schema": "https://json.schemastore.org/sarif-2.1.0.json", "version": "2.1.0", "runs": [run]},
                      indent=1) + "\n"
