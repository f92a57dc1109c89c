"""Side lists in the form of today's recorder, with its lines `frames`, and in the one before, with a line `frame` for
each frame: from either to the other."""

import re

TODAY, BEFORE = "binder side list 3\n", "binder side list 2\n"

# So many bytes at most are in a line `frames` of today's recorder.
LONGEST = 4095


def packed(side: str, longest: int = LONGEST) -> str:
    """A list of the form before, with lines `frames` of so many bytes at most."""
    lines: list[str] = []
    number = time = -1
    for line in side.replace(BEFORE, TODAY, 1).split("\n"):
        found = re.fullmatch(r"(\d+) frame (\d+)", line)
        if not found:
            number = -1
            lines.append(line)
            continue
        before, number_before = time, number
        time, number = int(found[1]), int(found[2])
        follows = number_before >= 0 and number == number_before + 1
        if follows and len(longer := f"{lines[-1]} {time - before}") <= longest:
            lines[-1] = longer
        else:
            lines.append(f"{time} frames {number}")
    return "\n".join(lines)


def unpacked(side: str) -> str:
    """A list of either form with a line for each frame."""
    def lines_of(found: re.Match[str]) -> str:
        time, number = int(found[1]), int(found[2])
        lines = [f"{time} frame {number}"]
        for number, delta in enumerate(found[3].split(), number + 1):
            time += int(delta)
            lines.append(f"{time} frame {number}")
        return "\n".join(lines)
    return re.sub(r"^(\d+) frames (\d+)((?: -?\d+)*)$", lines_of, side.replace(TODAY, BEFORE, 1), flags=re.MULTILINE)
