"""What `try` asks of pages in a browser: that they fit, log no error and are spoken well, also through a web server, and that keys lead to a log."""
import collections
import functools
import http.server
import pathlib
import threading
import urllib.parse

import browser

WIDTHS = (1280, 390)


def kinds_of(site):
    """A page of each kind, with a word that it has."""
    graphs = site / "graphs"
    failed = next((graphs / "night").glob("2*.html"))
    return {"front": (site / "index.html", "pool scales needs 1 open 0"), "graph": (graphs / "feed" / "index.html", "the state of run"),
            "night": (graphs / "night" / "index.html", "Tries over time"), "run": (failed, "upstream check failed")}


def look_at(site, pictures):
    """Loads a page of each kind in a browser, at two widths, light and dark."""
    if browser.program() is None:
        print("chromium is not installed, so no browser has seen a page; all else is checked")
        return
    grounds = set()
    with browser.Browser() as it:
        for name, (page, word) in kinds_of(site).items():
            for width in WIDTHS:
                for is_dark in (False, True):
                    seen = it.load(str(page), width, is_dark=is_dark)
                    assert not seen["errors"] and word in seen["text"], (page, seen)
                    assert seen["wide"] <= seen["room"] and not seen["past"], (page, width, seen["past"])
                    assert not seen["unnamed"] and not seen["scripts"], seen
                    grounds.add(seen["ground"])
                    if pictures:
                        it.picture(pictures / f"{name}-{width}-{'dark' if is_dark else 'light'}.png")
            spoken = it.spoken()
            roles = collections.Counter(role for role, _ in spoken)
            assert roles["heading"] >= 2 and roles["navigation"] == roles["main"] == 1, roles
            assert all(said for role, said in spoken if role == "link"), [it for it in spoken if it[0] == "link"]
        assert len(grounds) == 2, f"grounds: {grounds}"
        if pictures:
            it.load(str(site / "index.html"), 960, 648)
            it.picture(pictures / "page.png", is_whole=False)  # that of docs/IN_USE.md
        look_by_server(it, site)
        click_to_log(it, site)
    print(f"a browser shows each kind of page at {len(WIDTHS)} widths, light and dark, and logs no error; keys lead from the front page to a log")


def look_by_server(it, site):
    """The same pages through a web server, which is given nothing but the folder."""
    with http.server.ThreadingHTTPServer(("127.0.0.1", 0), functools.partial(Quiet, directory=site)) as server:
        threading.Thread(target=server.serve_forever, daemon=True).start()
        for page, word in kinds_of(site).values():
            seen = it.load(f"http://127.0.0.1:{server.server_address[1]}/{page.relative_to(site)}")
            assert not seen["errors"] and word in seen["text"] and seen["wide"] <= seen["room"], (page, seen)
        server.shutdown()


class Quiet(http.server.SimpleHTTPRequestHandler):
    def log_message(self, *_):
        pass


def click_to_log(it, site):
    """From the front page to the log of what failed, by the keyboard alone."""
    it.load(str(site / "index.html"))
    reached = None
    for _ in range(60):
        for kind in ("keyDown", "keyUp"):
            it.ask("Input.dispatchKeyEvent", type=kind, key="Tab", code="Tab", windowsVirtualKeyCode=9)
        at = "document.activeElement.getAttribute('href') || ''"
        reached = it.ask("Runtime.evaluate", expression=at, returnByValue=True)["result"]["value"]
        if reached.endswith(".log"):
            break
    log = pathlib.Path(site, urllib.parse.unquote(reached))
    assert log.is_file() and reached.endswith(".log"), reached
