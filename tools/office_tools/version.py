"""The version of these tools: of the package, or of the commit of the repository."""
import pathlib
import subprocess


def version() -> str:
    here = pathlib.Path(__file__).resolve().parent.parent
    try:
        return (here / "VERSION").read_text("ascii").strip()
    except (OSError, ValueError):
        pass
    try:
        found = subprocess.run(["git", "-C", here, "log", "-1", "--format=%h", "--abbrev=12"], capture_output=True, text=True, check=True)
        return found.stdout.strip()
    except (OSError, subprocess.CalledProcessError):
        return "unknown"
