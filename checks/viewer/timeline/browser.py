"""Timelines in chrome://tracing, in Debian's chromium without a window."""

import base64
import gzip
import json
import os
import pathlib
import shutil
import subprocess
import sys
import time
from typing import NamedTuple

# The height of a picture, in pixels.
HEIGHT = 900


class Chromium:
    """Debian's chromium without a window, by the pipe of its debugging protocol: messages of JSON that end with 0."""

    def __init__(self, room: pathlib.Path):
        program = shutil.which("chromium")
        if program is None:
            sys.exit("checks/trace: chromium is missing: apt-get install chromium")
        (theirs, self.to), (self.of, their_out) = os.pipe(), os.pipe()
        # The descriptors 3 and 4 of the browser are the two ends of the pipes.
        self.process = subprocess.Popen(
            ["bash", "-c", f'exec "$@" 3<&{theirs} 4>&{their_out}', "chromium", program, "--headless=new",
             "--no-sandbox", "--disable-gpu", "--disable-dev-shm-usage", "--remote-debugging-pipe",
             f"--user-data-dir={room / 'chromium'}", "about:blank"], pass_fds=(theirs, their_out),
            stdout=subprocess.DEVNULL, stderr=subprocess.DEVNULL)
        os.close(theirs)
        os.close(their_out)
        self.number, self.left = 0, b""

    def ask(self, method: str, session: str | None = None, **fields: object) -> dict:
        self.number += 1
        asked = {"id": self.number, "method": method, "params": fields, **({"sessionId": session} if session else {})}
        rest = json.dumps(asked).encode() + b"\0"
        while rest:
            rest = rest[os.write(self.to, rest):]
        while True:
            while b"\0" not in self.left:
                piece = os.read(self.of, 2**20)
                if not piece:
                    sys.exit("checks/trace: chromium has ended")
                self.left += piece
            message, _, self.left = self.left.partition(b"\0")
            answer = json.loads(message)
            if answer.get("id") == self.number:
                return answer.get("result", answer)

    def evaluate(self, session: str, text: str) -> object:
        answer = self.ask("Runtime.evaluate", session, expression=text, returnByValue=True, awaitPromise=True)
        return answer.get("result", {}).get("value", answer)


# What the importer of chrome://tracing makes of a timeline that is in `window.timeline`.
IMPORTED = """(() => {
  const model = new tr.Model();
  const options = new tr.importer.ImportOptions();
  options.showImportWarnings = false;
  new tr.importer.Import(model, options).importTraces([window.timeline]);
  const told = {slices: 0, queue_slices: 0, flows: 0, counter_events: 0, instants: 0, unfinished: 0};
  for (const process of model.getAllProcesses()) {
    told.instants += process.instantEvents.length;
    for (const counter of Object.values(process.counters)) told.counter_events += counter.timestamps.length;
    for (const thread of Object.values(process.threads)) {
      told.queue_slices += thread.asyncSliceGroup.slices.length;
      for (const slice of [...thread.sliceGroup.slices, ...(thread.sliceGroup.instantEvents || [])]) {
        told[['call', 'served', 'oneway'].includes(slice.category) ? 'slices' : 'instants'] += 1;
        told.unfinished += slice.didNotFinish ? 1 : 0;
      }
    }
  }
  told.instants += model.instantEvents.length;
  told.flows = model.flowEvents.length;
  told.warnings = model.importWarnings.map(one => one.type + ': ' + one.message);
  return JSON.stringify(told);
})()"""


class Viewer:
    """The viewer of chrome://tracing in chromium."""

    def __init__(self, room: pathlib.Path, viewer: str):
        page = room / "viewer.html"
        page.write_text("<!doctype html><meta charset=utf-8><script>"
                        + (pathlib.Path(viewer).parent / "webcomponents.min.js").read_text("utf-8") + "</script><body>"
                        + pathlib.Path(viewer).read_text("utf-8"), "utf-8")
        self.browser = Chromium(room)
        target = self.browser.ask("Target.createTarget", url=f"file://{page}")["targetId"]
        self.session = self.browser.ask("Target.attachToTarget", targetId=target, flatten=True)["sessionId"]
        for _ in range(120):
            if self.evaluate("document.readyState === 'complete' && typeof tr === 'object'") is True:
                return
            time.sleep(0.5)

    def ask(self, method: str, **fields: object) -> dict:
        return self.browser.ask(method, self.session, **fields)

    def evaluate(self, text: str) -> object:
        return self.browser.evaluate(self.session, text)

    def take(self, timeline: str) -> None:
        """Gives it the text of a timeline as `window.timeline`."""
        self.evaluate("window.timeline = ''; 1")
        for at in range(0, len(timeline), 2**20):
            self.evaluate(f"window.timeline += {json.dumps(timeline[at:at + 2**20])}; 1")

    def close(self) -> None:
        self.browser.ask("Browser.close")
        self.browser.process.wait(60)


def text_of(timeline: str | pathlib.Path) -> str:
    return gzip.decompress(pathlib.Path(timeline).read_bytes()).decode()


def read_in_chromium(room: pathlib.Path, viewer: str, paths: list[str]) -> None:
    """Prints what the viewer's importer has of each timeline, and what the timeline says of itself."""
    opened = Viewer(room, viewer)
    for path in paths:
        text = text_of(path)
        opened.take(text)
        print(path, opened.evaluate(IMPORTED), flush=True)
        told = json.loads(text)["otherData"]
        print(path, {name: told[name] for name in ("slices", "queue_slices", "flows", "counter_events", "instants")})
    opened.close()


# Shows `window.timeline` in the viewer, from this to that millisecond, the last processes, with the flows, and selects
# the slice at this place. The viewer would also warn that it is made for an older browser.
SHOW = """(async (name, place, from, to) => {
  const container = document.createElement('track-view-container');
  container.id = 'track_view_container';
  const viewer = document.createElement('tr-ui-timeline-view');
  viewer.warnPolyfill = () => {};
  viewer.track_view_container = container;
  viewer.style.cssText = 'position: absolute; inset: 0';
  Polymer.dom(viewer).appendChild(container);
  Polymer.dom(document.body).appendChild(viewer);
  const model = new tr.Model();
  new tr.importer.Import(model, new tr.importer.ImportOptions()).importTraces([window.timeline]);
  viewer.model = model;
  viewer.viewTitle = name;
  viewer.selectedFlowEvents.add('flow');
  while (!viewer.trackView || !viewer.trackView.hasVisibleContent)
    await new Promise(done => setTimeout(done, 200));
  const selected = new tr.model.EventSet();
  for (const process of model.getAllProcesses())
    for (const thread of Object.values(process.threads))
      for (const slice of thread.sliceGroup.slices)
        if (slice.args.place === place && ['call', 'served', 'oneway'].includes(slice.category)) selected.push(slice);
  viewer.brushingStateController.changeSelectionFromTimeline(selected);
  await new Promise(done => setTimeout(done, 2000));  // it draws, and zooms to all of it
  const shown = viewer.trackView.viewport, zoomed = shown.currentDisplayTransform.clone();
  zoomed.xSetWorldBounds(from, to, shown.modelTrackContainer.canvas.clientWidth);
  shown.setDisplayTransformImmediately(zoomed);
  shown.modelTrackContainer.scrollTop = 10000;
  await new Promise(done => setTimeout(done, 2000));
  return selected.length;
})"""


class Pictured(NamedTuple):
    """What a picture shows: a stored capture, the place of the slice that is selected, and the milliseconds."""
    name: str
    place: int
    start: float
    end: float


def make_picture(room: pathlib.Path, viewer: str, timeline: pathlib.Path, what: Pictured, picture: pathlib.Path
                 ) -> None:
    opened = Viewer(room, viewer)
    opened.ask("Emulation.setDeviceMetricsOverride", width=1180, height=HEIGHT, deviceScaleFactor=1, mobile=False)
    opened.take(text_of(timeline))
    found = opened.evaluate(f"{SHOW}(...{json.dumps(what)})")
    if found != 1:
        sys.exit(f"checks/trace: {what.name} has not one slice at {what.place}: {found}")
    picture.write_bytes(base64.b64decode(opened.ask("Page.captureScreenshot", format="png")["data"]))
    opened.close()
