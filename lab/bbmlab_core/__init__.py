"""The lab: a companion of `bbmcheck` that reads texts and reports, simulates and explains. Nothing here is proved."""

VERSION = "1.1.10"
