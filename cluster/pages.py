"""Parts of pages that programs write: what stands between two markers is replaced."""

from pathlib import Path


def write_part(page: Path, name: str, program: str, text: str) -> None:
    """Writes a text between the markers `<!-- NAME: written by PROGRAM -->` and `<!-- end of NAME -->`."""
    begin, end = f"<!-- {name}: written by {program} -->\n", f"<!-- end of {name} -->"
    before, found, rest = page.read_text(encoding="utf-8").partition(begin)
    _, ended, after = rest.partition(end)
    if not found or not ended:
        raise ValueError(f"{page} has no place for {name}")
    page.write_text(f"{before}{begin}\n{text}\n\n{end}{after}", encoding="utf-8")
