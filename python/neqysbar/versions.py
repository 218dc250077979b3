"""The version: of the wheel, or of the repository that this folder stands in."""

import pathlib

HERE = pathlib.Path(__file__).resolve().parent


def version() -> str:
    """The text of the file VERSION beside this module, or at the top of the repository."""
    for place in (HERE / "VERSION", HERE.parent.parent / "VERSION"):
        if place.is_file():
            return place.read_text(encoding="ascii").strip()
    return "unknown"
