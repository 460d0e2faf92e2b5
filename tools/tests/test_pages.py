"""Tests of the pages: their links lead somewhere, and the scripts that they name are there."""
import re

import frame

PAGES = ["README.md", *sorted(f"docs/{path.name}" for path in (frame.ROOT / "docs").glob("*.md")), "bench/README.md", "recordings/README.md"]


def prose(page):
    """A page without its blocks."""
    text = (frame.ROOT / page).read_text(encoding="utf-8")
    return re.sub(r"^```.*?^```", "", text, flags=re.DOTALL | re.MULTILINE)


def anchors(page):
    """What a link may name behind #: the headings, in small letters, without signs, with - for blanks."""
    return {re.sub(r"[^\w\- ]", "", head.lower()).replace(" ", "-") for head in re.findall(r"^#+ (.*)$", prose(page), re.MULTILINE)}


def test_links_lead_somewhere(bench):
    seen = 0
    for page in PAGES:
        for target in re.findall(r"\]\(([^)\s]+)\)", re.sub(r"`[^`]*`", "", prose(page))):
            if "://" in target:
                continue
            seen += 1
            path, _, anchor = target.partition("#")
            file = (frame.ROOT / page).parent / path if path else frame.ROOT / page
            frame.holds(file.exists(), f"{page}: there is no {target}")
            if anchor:
                frame.holds(anchor in anchors(file.resolve().relative_to(frame.ROOT)), f"{page}: no heading for {target}")
    frame.holds(seen > 30, f"{seen} links")


def test_scripts_that_are_named_are_there(bench):
    seen = set()
    for page in PAGES:
        text = (frame.ROOT / page).read_text(encoding="utf-8")
        seen |= {(page, path) for path in re.findall(r"(?<![\w/.])(?:tools|bench|\.ci)/[\w/]+(?:\.\w+)?(?<!/)", text)}
    for page, path in sorted(seen):
        # what is built, a name to be filled in, and a topic of a broker are no files
        made = path.startswith("tools/tests/test_NAME") or "/out/" in path or re.fullmatch(r"bench/\w+/verdicts", path)
        frame.holds(made or (frame.ROOT / path).exists(), f"{page} names {path}")
    frame.holds(len(seen) > 20, f"{len(seen)} names")
