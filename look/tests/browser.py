"""A headless Chromium that loads pages and says what it sees, for the tests: it is told by a pipe, in the words of its DevTools."""
import base64
import fcntl
import itertools
import json
import os
import pathlib
import select
import shutil
import signal
import subprocess
import tempfile
import time

PROGRAMS = ("chromium", "chromium-browser", "google-chrome")
OPTIONS = [f"--{it}" for it in "headless no-sandbox disable-gpu disable-dev-shm-usage disable-background-networking no-first-run mute-audio hide-scrollbars".split()]
SECONDS = 60
# what a page says of itself: its text, where its links lead, how wide it is, what lies past its edge, and the colours of its ground and its text
SEEN = """(() => {
  const wide = document.documentElement.clientWidth, style = getComputedStyle(document.body);
  const past = [...document.querySelectorAll('main *')].filter(it => !it.closest('.scroll, svg, pre, thead') && it.getBoundingClientRect().right > wide + 1);
  return {text: document.body.innerText, links: [...document.querySelectorAll('[href]')].map(it => it.href.baseVal ?? it.getAttribute('href')),
    wide: document.documentElement.scrollWidth, room: wide, past: past.slice(0, 3).map(it => it.outerHTML.slice(0, 120)),
    ground: style.backgroundColor, ink: style.color, scripts: document.scripts.length, elements: document.querySelectorAll('*').length,
    unnamed: [...document.querySelectorAll('a')].filter(it => !it.textContent.trim() && !it.getAttribute('aria-label')).length,
    heads: [...document.querySelectorAll('h1, h2')].map(it => it.textContent.trim()), ran: window.ran ?? null};
})()"""


def program():
    """The browser that is installed, or None."""
    return next(filter(None, map(shutil.which, PROGRAMS)), None)


class Browser:
    """Use it by `with`: it is ended, and leaves nothing."""

    def __enter__(self):
        self.numbers, self.events, self.rest = itertools.count(1), [], b""
        self.folder = tempfile.TemporaryDirectory(prefix="browser-", ignore_cleanup_errors=True)
        heard, self.told = os.pipe()
        self.said, says = os.pipe()
        # numbers that are neither of those that the browser goes by
        ends = [fcntl.fcntl(it, fcntl.F_DUPFD_CLOEXEC, 10) for it in (heard, says)]
        def give():
            for number, it in enumerate(ends, 3):
                os.dup2(it, number)
        words = [program(), *OPTIONS, "--remote-debugging-pipe", f"--user-data-dir={self.folder.name}/data", "about:blank"]
        environment = {**os.environ, **dict.fromkeys(("HOME", "TMPDIR", "XDG_CONFIG_HOME", "XDG_CACHE_HOME"), self.folder.name)}
        nothing = dict.fromkeys(("stdin", "stdout", "stderr"), subprocess.DEVNULL)
        self.process = subprocess.Popen(words, pass_fds=(3, 4), preexec_fn=give, env=environment, start_new_session=True, **nothing)
        for it in (heard, says, *ends):
            os.close(it)
        target = self.ask("Target.createTarget", url="about:blank")["targetId"]
        self.session = self.ask("Target.attachToTarget", targetId=target, flatten=True)["sessionId"]
        for name in ("Page", "Runtime", "Log", "Network"):
            self.ask(f"{name}.enable")
        return self

    def __exit__(self, *_):
        os.killpg(self.process.pid, signal.SIGKILL)
        self.process.wait()
        os.close(self.told)
        os.close(self.said)
        self.folder.cleanup()

    def ask(self, method, **given):
        number = next(self.numbers)
        words = {"id": number, "method": method, "params": given}
        if hasattr(self, "session"):
            words["sessionId"] = self.session
        os.write(self.told, json.dumps(words).encode() + b"\0")
        while True:
            it = self.read()
            if it.get("id") == number:
                if "error" in it:
                    raise RuntimeError(f"{method}: {it['error']}")
                return it["result"]
            self.events.append(it)

    def read(self):
        end = time.monotonic() + SECONDS
        while b"\0" not in self.rest:
            if not select.select([self.said], [], [], max(end - time.monotonic(), 0))[0]:
                raise TimeoutError("the browser does not answer")
            part = os.read(self.said, 1 << 20)
            if not part:
                raise RuntimeError("the browser has ended")
            self.rest += part
        one, self.rest = self.rest.split(b"\0", 1)
        return json.loads(one)

    def load(self, page, width=1280, height=900, is_dark=False):
        """Loads a file or an address in a window so wide; gives what is seen there, with what went wrong."""
        self.ask("Emulation.setDeviceMetricsOverride", width=width, height=height, deviceScaleFactor=1, mobile=width < 600)
        self.ask("Emulation.setEmulatedMedia", features=[{"name": "prefers-color-scheme", "value": "dark" if is_dark else "light"}])
        self.events.clear()
        self.ask("Page.navigate", url=page if "://" in page else pathlib.Path(page).resolve().as_uri())
        while not any(it.get("method") == "Page.loadEventFired" for it in self.events):
            self.events.append(self.read())
        found = self.ask("Runtime.evaluate", expression=SEEN, returnByValue=True)["result"]["value"]
        return {**found, "errors": [*self.errors()]}

    def errors(self):
        """What the page logged, threw or could not load."""
        for it in self.events:
            given = it.get("params", {})
            if it.get("method") == "Log.entryAdded" and given["entry"]["level"] in ("error", "warning"):
                yield given["entry"]["text"]
            elif it.get("method") in ("Runtime.exceptionThrown", "Runtime.consoleAPICalled", "Network.loadingFailed"):
                yield f"{it['method']}: {given}"

    def picture(self, path, is_whole=True):
        """Keeps a picture of the page."""
        shot = self.ask("Page.captureScreenshot", format="png", captureBeyondViewport=is_whole, **self.clip() if is_whole else {})
        pathlib.Path(path).write_bytes(base64.b64decode(shot["data"]))

    def clip(self):
        size = self.ask("Page.getLayoutMetrics")["cssContentSize"]
        return {"clip": {"x": 0, "y": 0, "width": size["width"], "height": min(size["height"], 6000), "scale": 1}}

    def spoken(self):
        """What a screen reader is told: the roles and names of the page."""
        tree = self.ask("Accessibility.getFullAXTree")["nodes"]
        return [(it["role"]["value"], it.get("name", {}).get("value", "")) for it in tree if not it.get("ignored")]
