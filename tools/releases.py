"""The programs that earlier commits have in release/."""
import gzip
import pathlib
import subprocess

TOP = pathlib.Path(__file__).resolve().parent.parent


def releases(room):
    """Each program that git has, latest first, in a folder: its commit, what its --version prints, and its path. Those that git lacks are left out."""
    git = ["git", "-C", str(TOP)]
    for commit in subprocess.run([*git, "log", "--format=%h", "--", "release/dagsched.gz"], capture_output=True, text=True, check=False).stdout.split():
        packed = subprocess.run([*git, "show", f"{commit}:release/dagsched.gz"], capture_output=True, check=False)
        if packed.returncode == 0:
            path = pathlib.Path(room, f"release-{commit}")
            path.write_bytes(gzip.decompress(packed.stdout))
            path.chmod(0o755)
            yield commit, subprocess.run([path, "--version"], capture_output=True, text=True, check=False).stdout.strip(), str(path)
            path.unlink()
