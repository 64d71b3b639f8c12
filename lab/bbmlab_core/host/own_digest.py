"""Whether a report of the program is of the text that it was given: the report has the digest of its certificate."""

import hashlib

CERTIFICATE_HEADER = b"\ncertificate "


def why_not_report_of(text: bytes, output: str) -> str | None:
    """Returns why a report is not of a bundle, or None if it is, or if it is no report."""
    lines = output.split("\n", 2)
    word, _, digest = lines[1].partition(" ") if len(lines) > 2 else ("", "", "")
    if lines[0] != "bbmcheck 1" or word != "certificate":
        return None
    # The program read the text, so its last section begins at the only line with this header, and ends with the text.
    own = hashlib.sha256(text[text.rfind(CERTIFICATE_HEADER) + 1:]).hexdigest()
    return (None if digest == own else f"its report is of a certificate with the digest {digest[:16]}.., and that of "
            f"the text has {own[:16]}..")
