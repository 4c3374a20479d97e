"""A folder of plain files that is written again and again, beside readers, also through a web server and where the folder is mounted elsewhere.

All files of a writing are made in a hidden folder first. Then each takes its place in one step, those that are linked to before those that link to them. A
file that is not another stays as it is. One that is no more of the site goes with the writing after this one, so that a page that was read before it leads
somewhere. The folder has a mark with the names of its files: nothing else in it is changed or removed.
"""
import contextlib
import fcntl
import json
import os
import pathlib
import shutil
import tempfile

MARK, LAYOUTS, NEW = ".dagsched-page", ".dagsched-layouts", ".dagsched-new-"


class NoSite(Exception):
    """Why nothing is written to a folder."""


def read(path):
    """What a file of an earlier writing says, or nothing: it is made anew then."""
    try:
        found = json.loads(path.read_text(encoding="utf-8"))
    except (OSError, ValueError):
        found = None
    return found if isinstance(found, dict) else {}


class Site:
    def __init__(self, folder, making):
        self.folder, self.making = folder, making
        mark = read(folder / MARK)
        self.before, self.gone = set(mark.get("files", ())), set(mark.get("gone", ()))
        self.files, self.moves = [], []

    def put(self, name, text):
        """Makes a file, for its place at the end; the first is the first that takes it."""
        content = text.encode("utf-8", errors="replace")
        self.files.append(name)
        with contextlib.suppress(OSError):
            if (self.folder / name).read_bytes() == content:
                return
        made = self.making / str(len(self.files))
        made.write_bytes(content)
        self.moves.append((made, name))

    def mark(self, **more):
        made = self.making / "mark"
        made.write_text(json.dumps(more), encoding="utf-8")
        os.replace(made, self.folder / MARK)

    def end(self):
        """Lets all files take their places."""
        files = set(self.files)
        self.mark(files=sorted(files | self.before), gone=sorted(self.gone))
        for name in {os.path.dirname(name) for _, name in self.moves}:
            (self.folder / name).mkdir(parents=True, exist_ok=True)
        for made, name in self.moves:
            os.replace(made, self.folder / name)
        for name in self.gone - files:
            self.remove(name)
        self.mark(files=sorted(files), gone=sorted(self.before - files))

    def remove(self, name):
        path = self.folder / name
        with contextlib.suppress(OSError):
            path.unlink()
            path.parent.rmdir()

    def layouts(self):
        """Pictures of graphs that were laid out before."""
        return read(self.folder / LAYOUTS)

    def keep_layouts(self, layouts):
        made = self.making / "layouts"
        made.write_text(json.dumps(layouts), encoding="utf-8")
        os.replace(made, self.folder / LAYOUTS)


@contextlib.contextmanager
def site_at(path):
    """The site in a folder, which is made where it is not there, for this program alone."""
    folder = pathlib.Path(path)
    folder.mkdir(exist_ok=True)
    held = os.open(folder, os.O_RDONLY | os.O_DIRECTORY)
    try:
        fcntl.flock(held, fcntl.LOCK_EX | fcntl.LOCK_NB)
        if not (folder / MARK).exists() and any(not it.name.startswith(".") for it in folder.iterdir()):
            raise NoSite(f"{path}: this folder has files that no page wrote: name a new or an empty folder")
        for it in folder.glob(f"{NEW}*"):
            shutil.rmtree(it, ignore_errors=True)
        with tempfile.TemporaryDirectory(prefix=NEW, dir=folder) as making:
            yield Site(folder, pathlib.Path(making))
    except BlockingIOError:
        raise NoSite(f"{path}: another page is being written there") from None
    finally:
        os.close(held)
