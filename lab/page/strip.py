"""The strip of a lab: its builds in place of a time, and below what became of defects in each."""

from lab.compare import BACK, SHOWN
from lab.page.builds import Build
from lab.page.defects import Defect
from viewer.page.bars import Bar, Lane
from viewer.page.strip import HEIGHT, WIDTH, Tick
from viewer.terminal import shown
from viewer.units import counted


class Strip:
    """What the strip shows, as that of a capture: builds are its parts, as high as they have captures that count."""

    unit, moment, at_moment = "builds", None, None

    def __init__(self, builds: list[Build], defects: list[Defect]):
        self.builds, self.defects = builds, defects
        self.width, self.height, self.length = WIDTH, HEIGHT, max(len(builds), 1)
        self.most = max((build.captures for build in builds), default=0)
        self.line = self.captures()
        self.lanes = [lane for lane in map(self.lane, dict.fromkeys((*SHOWN, BACK))) if lane.bars]
        self.ticks = [Tick(shown(build.name), "") for build in builds]

    @property
    def is_there(self) -> bool:
        return len(self.builds) > 1

    def captures(self) -> str:
        """The line of the captures that count, as an area."""
        step = WIDTH / self.length
        tops = (f"V{HEIGHT - (HEIGHT - 2) * build.captures / max(self.most, 1):.1f}H{(at + 1) * step:g}"
                for at, build in enumerate(self.builds))
        return f"M0 {HEIGHT}{''.join(tops)}V{HEIGHT}Z"

    def lane(self, what: str) -> Lane:
        """A bar for each build in which this became of some defects."""
        bars = []
        for at, build in enumerate(self.builds):
            some = [defect for defect in self.defects if defect.cells[at].what == what]
            if some:
                label = f"{shown(build.name)}: {counted(len(some), 'defect')} {what}"
                bars.append(Bar(round(WIDTH * at / self.length, 1), round(WIDTH / self.length, 1), label, some[0].key))
        return Lane(what, what, bars)


def builds_with(defect: Defect) -> str:
    """In which builds a defect is, as the script of the page reads it: from the middle of one to the middle of one."""
    having = [at for at, cell in enumerate(defect.cells) if cell.having]
    begins = [at for at in having if at - 1 not in having]
    ends = [at for at in having if at + 1 not in having]
    return " ".join(f"{begin}.5 {end}.5" for begin, end in zip(begins, ends))
