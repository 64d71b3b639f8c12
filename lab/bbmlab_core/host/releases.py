"""Which program answered: its digest, and what the release's MANIFEST says of it."""

import subprocess
from dataclasses import dataclass

from .program import PACKAGE_FOLDER, Executable, BadProgramError, kill_session
from .terminal import LabError, read_bytes

# Where a MANIFEST may be: in the repository, and in an installation.
MANIFEST_PATHS = [*(PACKAGE_FOLDER.parent.parent / "release" / target / "MANIFEST"
                    for target in ("x86_64-linux-gnu", "x86_64-v3-linux-gnu")),
                  PACKAGE_FOLDER.parent.parent.parent / "share" / "doc" / "bbmcheck" / "MANIFEST"]
# How long `--version` may take.
VERSION_TIMEOUT_SECONDS = 10.0


@dataclass(frozen=True)
class ProgramIdentity:
    """A program by its SHA-256. `version` is what `--version` prints first. `kit` and `sources_digest` are of its
    release, or None if it is none that is known here."""

    sha256: str
    version: str | None
    kit: str | None = None
    sources_digest: str | None = None


def manifest_values(text: str) -> dict[str, str]:
    """Returns the words and values of a MANIFEST."""
    return dict(line.split(" ", 1) for line in text.splitlines() if " " in line)


def known_releases(more: tuple[str, ...] = ()) -> dict[str, dict[str, str]]:
    """Returns the releases that are known here, by the SHA-256 of their program. `more` are names of other MANIFESTs.
    """
    texts = [place.read_text(encoding="utf-8", errors="replace") for place in MANIFEST_PATHS if place.is_file()]
    for name in more:
        text = read_bytes(name).decode("utf-8", "replace")
        if "program_sha256" not in manifest_values(text):
            raise LabError(f"{name}: this is no MANIFEST of a release: it has no line `program_sha256 ..`")
        texts.append(text)
    found = (manifest_values(text) for text in texts)
    return {lines["program_sha256"]: lines for lines in found if "program_sha256" in lines}


def program_identity(program: Executable) -> ProgramIdentity:
    """Returns which program was opened: by the digest of its copy, of which the copy itself is asked for its version.
    """
    release = known_releases().get(program.sha256, {})
    return ProgramIdentity(program.sha256, program_version(program), release.get("kit"), release.get("sources_sha256"))


def program_version(program: Executable) -> str | None:
    """Returns the first line that `--version` prints, or None if it ends otherwise."""
    try:
        asked = program.start("--version")
    except OSError as error:
        raise BadProgramError(f"{program} can't be run: {error.strerror or error}") from error
    try:
        output, _ = asked.communicate(timeout=VERSION_TIMEOUT_SECONDS)
    except subprocess.TimeoutExpired as error:
        kill_session(asked)
        asked.communicate()
        raise BadProgramError(
            f"{program} can't be run: `--version` gave no answer within {VERSION_TIMEOUT_SECONDS:g} seconds") from error
    lines = output.decode("utf-8", "replace").splitlines()
    return lines[0] if lines and not asked.returncode else None
