"""Checks the stored captures of the real driver.

    checks/run stored [-- CASE..]       plays these captures alone, as `leaks`
    checks/run stored -- --print ..     writes the stored reports of these anew, and prints what changed

Each folder in samples/driver has a capture, its side list, the driver's books and the report. The auditor and the
second reading must both write this report, and the listing must have as many records. The report and the books are
compared as for a guest.
"""

from checks.kit.checking import FLAG, check
from checks.kit.listed import listed
from checks.kit.programs import DRIVER
from checks.kit.second_reading import reading_of_parts
from checks.kit.stored import renew
from checks.recorder.driver.compare import Scenario, explained, row_of, unfound


def faults_of(scenario, reasons):
    wanted = (scenario.folder / "report.txt").read_text("utf-8")
    captures = scenario.recording.captures
    if scenario.text != wanted:
        yield "the auditor writes another report"
    if reading_of_parts([path.read_bytes() for path in captures]) != (0, wanted.splitlines()):
        yield "the second reading has another report"
    if listed(*captures)[1].count(b"\n") != int(wanted.split()[6]):
        yield "the listing has another number of records"
    for difference in scenario.differences()[0]:
        row = row_of(scenario.name, difference)
        if row not in reasons:
            yield "not explained: " + " ".join(row)


def names():
    return [path.name for path in sorted(DRIVER.iterdir()) if path.is_dir()]


def judge(given, _, fail):
    scenarios = [Scenario(given.programs[0], DRIVER / name) for name in given.cases]
    if not scenarios:
        fail(f"{DRIVER} has no captures")
    reasons = explained()
    for scenario in scenarios:
        if given.print:
            renew(scenario.folder / "report.txt", scenario.text)
        for fault in faults_of(scenario, reasons):
            fail(f"{scenario.folder.name}: {fault}")
    for driver, section, tried, found in () if given.named else unfound(scenarios):
        if not tried or tried != found:
            fail(f"wrong books of the driver in {driver}, {section}: tried {tried}, found {found}")


if __name__ == "__main__":
    check(judge, names, print=FLAG)
