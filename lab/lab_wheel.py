"""Builds the wheel of the lab for pip (PEP 517). It needs nothing but Python, so `pip install ./lab` works without a
network, and it writes nothing next to the sources.

The packages are pure Python, and what a wheel contains is written in `pyproject.toml`.
"""

import base64
import hashlib
import os
import re
import tomllib
import zipfile
from pathlib import Path
from typing import Any, Iterator

LAB_FOLDER = Path(__file__).resolve().parent
# The date of all files of a wheel: the bytes depend on the sources alone.
FILE_DATE = (1980, 1, 1, 0, 0, 0)


def version() -> str:
    """Returns the version of the lab."""
    found = re.search(r'^VERSION = "([^"]+)"$',
                      (LAB_FOLDER / "bbmlab_core" / "__init__.py").read_text(encoding="utf-8"), re.MULTILINE)
    assert found, "bbmlab_core/__init__.py has no line VERSION"
    return found[1]


def package_files(settings: dict[str, Any]) -> Iterator[tuple[str, Path]]:
    """Yields the files of the packages with their names in the wheel."""
    for package, place in settings["packages"].items():
        for path in sorted((LAB_FOLDER / place).iterdir()):
            if path.suffix == ".py" or any(path.match(pattern) for pattern in settings["data"].get(package, [])):
                yield f"{package.replace('.', '/')}/{path.name}", path


def metadata_text(about: dict[str, Any]) -> str:
    """Returns the description of the package."""
    lines = ["Metadata-Version: 2.1", f"Name: {about['name']}", f"Version: {version()}",
             f"Summary: {about['description']}",
             f"License: {about['license']['text']}", f"Requires-Python: {about['requires-python']}"]
    for extra, needed in about["optional-dependencies"].items():
        lines += [f"Provides-Extra: {extra}", *(f'Requires-Dist: {name}; extra == "{extra}"' for name in needed)]
    return "\n".join([*lines, "Description-Content-Type: text/markdown", "", about["readme"]["text"]])


def wheel_file_contents() -> dict[str, bytes]:
    """Returns the files of the wheel, without the list of them."""
    settings = tomllib.loads((LAB_FOLDER / "pyproject.toml").read_text(encoding="utf-8"))
    about, folder = settings["project"], f"bbmlab-{version()}.dist-info"
    scripts = "".join(f"{name} = {target}\n" for name, target in about["scripts"].items())
    found = {name: path.read_bytes() for name, path in package_files(settings["tool"]["lab_wheel"])}
    return {**found, f"{folder}/METADATA": metadata_text(about).encode(),
            f"{folder}/entry_points.txt": f"[console_scripts]\n{scripts}".encode(),
            f"{folder}/WHEEL": b"Wheel-Version: 1.0\nGenerator: lab_wheel\nRoot-Is-Purelib: true\nTag: py3-none-any\n"}


def build_wheel(wheel_directory: str, config_settings: Any = None, metadata_directory: Any = None) -> str:
    """Writes the wheel to a folder, and returns its name."""
    files, name = wheel_file_contents(), f"bbmlab-{version()}-py3-none-any.whl"
    record = f"bbmlab-{version()}.dist-info/RECORD"
    digests = {file: base64.urlsafe_b64encode(hashlib.sha256(data).digest()).rstrip(b"=").decode() for file,
               data in files.items()}
    lines = [f"{file},sha256={digests[file]},{len(data)}" for file, data in files.items()]
    files[record] = "\n".join([*lines, f"{record},,", ""]).encode()
    with zipfile.ZipFile(Path(wheel_directory) / name, "w", zipfile.ZIP_DEFLATED) as wheel:
        for file, data in files.items():
            entry = zipfile.ZipInfo(file, FILE_DATE)
            entry.external_attr = 0o100644 << 16
            wheel.writestr(entry, data, zipfile.ZIP_DEFLATED)
    remove_compiled_file()
    return name


def get_requires_for_build_wheel(config_settings: Any = None) -> list[str]:
    """Returns what a build needs: nothing."""
    return []


def remove_compiled_file() -> None:
    """Removes what Python wrote when pip imported this file."""
    compiled = globals().get("__cached__")
    if compiled and Path(compiled).is_relative_to(LAB_FOLDER):
        Path(compiled).unlink(missing_ok=True)
        if Path(compiled).parent.is_dir() and not os.listdir(Path(compiled).parent):
            Path(compiled).parent.rmdir()
