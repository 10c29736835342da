"""Files that are written wholly or not at all."""

import contextlib
import os
from collections.abc import Iterator, Mapping
from pathlib import Path

try:
    import fcntl
except ImportError:  # not on Windows
    fcntl = None  # type: ignore[assignment]

from .faults import Fault
from .records import Place


def write_files(folder: Place, texts: Mapping[str, str]) -> None:
    """Writes texts into files of a folder, which is made where there is none.

    Each is written beside its place, and all take their names at the end: what stops it leaves the files that were there, and no others. A symbolic
    link gives way to the file; what is no file, as a pipe, is written to as it is.
    """
    home = Path(folder)
    is_new, beside = not home.exists(), dict[Path, Path]()
    try:
        home.mkdir(parents=True, exist_ok=True)
        for name, text in texts.items():
            place = home / name
            is_other = place.exists() and not place.is_file()
            path = place if is_other else home / f".{name}.{os.getpid()}"
            if not is_other:
                beside[path] = place
            path.write_text(text, encoding="utf-8", errors="surrogateescape", newline="")
        for path, place in beside.items():
            path.replace(place)
    except BaseException as fault:
        for path in beside:
            with contextlib.suppress(OSError):
                path.unlink(missing_ok=True)
        if is_new:
            with contextlib.suppress(OSError):
                home.rmdir()
        if isinstance(fault, OSError):
            raise Fault(f"{home}: {fault.strerror or fault}: {', '.join(texts)} can't be written there") from fault
        raise


_CLAIMED: dict[Path, int] = {}


def claim(folder: Path) -> None:
    """Keeps a folder for this process until it ends, where the system can: a second one, which would write over its files, is refused."""
    if fcntl is None or folder.resolve() in _CLAIMED:
        return
    handle = os.open(folder, os.O_RDONLY)
    try:
        fcntl.flock(handle, fcntl.LOCK_EX | fcntl.LOCK_NB)
    except OSError as fault:
        os.close(handle)
        if isinstance(fault, BlockingIOError):
            raise Fault(f"{folder}: another run is at work in this folder: take another one, or wait for its end") from fault
        return
    _CLAIMED[folder.resolve()] = handle


@contextlib.contextmanager
def nothing_left(folder: Path) -> Iterator[None]:
    """Makes a folder where there is none, and what stops the work on its files leaves none there that are new."""
    before = set(folder.iterdir()) if folder.is_dir() else None
    folder.mkdir(parents=True, exist_ok=True)
    try:
        yield
    except BaseException:
        with contextlib.suppress(OSError):
            for path in set(folder.iterdir()) - (before or set()):
                path.unlink()
            if before is None:
                folder.rmdir()
        raise


def write_file(place: Place, text: str) -> None:
    """Writes one file in this way."""
    write_files(Path(place).parent, {Path(place).name: text})
