"""Files that the scripts beside this one write: whole or not at all, and never over what a user has there."""
import os
from pathlib import Path

from boards import Wrong


def check(path, is_ours=None, hint="name another file"):
    """Refuses a file that is there already, unless `is_ours` says of what it holds that it may be written over."""
    path = Path(path)
    if path.is_dir():
        raise Wrong(f"{path} is a folder; name a file")
    if path.is_file() and not (is_ours and is_ours(path.read_text(errors="replace"))):
        raise Wrong(f"{path} is there already, and is not written over: {hint}")


def write(path, text, is_ours=None, hint="name another file"):
    """Writes a text to a file that may be written, as `check` has it."""
    path = Path(path)
    try:
        check(path, is_ours, hint)
        if path.exists() and not path.is_file():
            # A device, as /dev/stdout is.
            path.write_text(text)
            return
        replace(path, text)
    except OSError as error:
        raise Wrong(f"{path} cannot be written: {error.strerror}")


def claim(path):
    """Refuses a file that is there, or that can't be written, before a long work whose result it is to hold."""
    write(path, "")
    os.unlink(path)


def replace(path, text):
    """Puts a text in place of what a file holds, at once, so that an interrupt leaves the one or the other."""
    path = Path(os.path.realpath(path))
    beside = path.with_name(f".{path.name}.{os.getpid()}")
    try:
        with open(beside, "x") as file:
            file.write(text)
        if path.exists():
            os.chmod(beside, path.stat().st_mode & 0o777)
        os.replace(beside, path)
    finally:
        if beside.exists():
            beside.unlink()


def distinct(outputs):
    """Refuses two inputs with one output. Each input comes by its name, with the path of its output."""
    found = {}
    for name, path in outputs:
        before = found.setdefault(os.path.realpath(path), name)
        if before != name:
            raise Wrong(f"{before} and {name} would both be written to {path}; write them one by one, and name other files")
