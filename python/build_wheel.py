"""Builds the package for `pip install ./python` by Python's own library, so that nothing has to be fetched for it.

pip calls `build_wheel` or `build_sdist` (PEP 517), or `build_editable` for `pip install -e ./python` (PEP 660).
"""

import base64
import hashlib
import tarfile
import tomllib
import zipfile
from pathlib import Path

ROOT = Path(__file__).resolve().parent
PROJECT = tomllib.loads((ROOT / "pyproject.toml").read_text(encoding="utf-8"))["project"]
NAME = f"{PROJECT['name']}-{PROJECT['version']}"


def package_files() -> list[Path]:
    """The files of the package."""
    return sorted(path for path in (ROOT / PROJECT["name"]).rglob("*") if path.is_file() and "__pycache__" not in path.parts)


def metadata() -> str:
    """What the package says of itself."""
    lines = {
        "Metadata-Version": "2.1",
        "Name": PROJECT["name"],
        "Version": PROJECT["version"],
        "Summary": PROJECT["description"],
        "Requires-Python": PROJECT["requires-python"],
    }
    extras = "".join(
        f"Provides-Extra: {extra}\n" + "".join(f"Requires-Dist: {need}; extra == '{extra}'\n" for need in needs)
        for extra, needs in PROJECT["optional-dependencies"].items()
    )
    return "".join(f"{key}: {words}\n" for key, words in lines.items()) + extras


def write_wheel(folder: str, files: dict[str, bytes]) -> str:
    """A wheel of these files with what says of it; answers its name."""
    info = f"{NAME}.dist-info"
    scripts = "".join(f"{name} = {call}\n" for name, call in PROJECT["scripts"].items())
    files = files | {
        f"{info}/METADATA": metadata().encode(),
        f"{info}/WHEEL": b"Wheel-Version: 1.0\nGenerator: build_wheel\nRoot-Is-Purelib: true\nTag: py3-none-any\n",
        f"{info}/entry_points.txt": f"[console_scripts]\n{scripts}".encode(),
    }
    rows = [f"{name},sha256={sum_of(inside)},{len(inside)}\n" for name, inside in files.items()]
    wheel = f"{NAME}-py3-none-any.whl"
    with zipfile.ZipFile(Path(folder) / wheel, "w", zipfile.ZIP_DEFLATED) as archive:
        for name, inside in files.items():
            archive.writestr(name, inside)
        archive.writestr(f"{info}/RECORD", "".join([*rows, f"{info}/RECORD,,\n"]))
    return wheel


def sum_of(inside: bytes) -> str:
    """The checksum of a file in the form of a wheel."""
    return base64.urlsafe_b64encode(hashlib.sha256(inside).digest()).rstrip(b"=").decode()


def build_wheel(wheel_directory, config_settings=None, metadata_directory=None) -> str:
    """The package as a wheel."""
    return write_wheel(wheel_directory, {path.relative_to(ROOT).as_posix(): path.read_bytes() for path in package_files()})


def build_editable(wheel_directory, config_settings=None, metadata_directory=None) -> str:
    """A wheel that names this folder, so that changes here count at once."""
    return write_wheel(wheel_directory, {f"{PROJECT['name']}.pth": f"{ROOT}\n".encode()})


def build_sdist(sdist_directory, config_settings=None) -> str:
    """The package with what builds it."""
    name = f"{NAME}.tar.gz"
    with tarfile.open(Path(sdist_directory) / name, "w:gz") as archive:
        for path in (*package_files(), ROOT / "pyproject.toml", ROOT / "build_wheel.py"):
            archive.add(path, f"{NAME}/{path.relative_to(ROOT).as_posix()}")
    return name
