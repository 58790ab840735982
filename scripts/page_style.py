"""How pages are written: how long they, their paragraphs and their lines are, and which words they avoid.
For `pages.py`."""

import re

# The most words of each page, as `wc -w` counts them; and of a crate's README.
MOST_WORDS_OF = {
    "README.md": 1_000, "CONTRIBUTING.md": 2_030, "CHANGELOG.md": 600, "SECURITY.md": 750,
    "docs/USING.md": 3_280, "docs/PROTOCOL.md": 8_200, "docs/FORMATS.md": 5_050,
    "docs/SQL.md": 5_180, "docs/PROMISE.md": 5_720, "docs/ARCHITECTURE.md": 6_000,
    "docs/DECISIONS.md": 6_020, "docs/SCALING.md": 950, "bench/README.md": 2_500,
    "scripts/README.md": 2_000, "clients/python/README.md": 770,
    "gateway/README.md": 1_050, "plants/README.md": 1_250, "vectors/README.md": 400,
    "vectors/arrow/README.md": 1_200, "vectors/flight/README.md": 350, "vectors/puts/README.md": 320,
}
MOST_WORDS_OF_A_CRATE = 1_000
MOST_WORDS_OF_CRATES, MOST_WORDS_OF_OTHERS = 33_800, 54_060  # of all crates' READMEs, and of all other pages
MOST_WORDS_OF_A_PARAGRAPH = 80
MOST_COLUMNS = 100
AVOIDED = re.compile(r"\b(behind|beside|anew|whoever|house)\b", re.I)


def plain_lines(text):
    """The lines outside of code and tables, with their numbers; a code line is empty."""
    is_code = False
    for number, line in enumerate(text.split("\n"), 1):
        if line.lstrip().startswith("```"):
            is_code, line = not is_code, ""
        yield number, "" if is_code or line.lstrip().startswith("|") else line


def paragraphs(text):
    """Each paragraph or item of a list, with the line where it begins."""
    begin, held = 0, []
    for number, line in [*plain_lines(text), (0, "")]:
        stripped = line.strip()
        if held and (not stripped or re.match(r"([-*>]|\d+\.)\s|#", stripped)):
            yield begin, " ".join(held)
            held = []
        if stripped and not stripped.startswith("#"):
            begin = begin if held else number
            held.append(stripped)


def most_words(name):
    """The most words of the page of this name; `None` where it has no limit."""
    if re.fullmatch(r"crates/\w+/README\.md", name):
        return MOST_WORDS_OF_A_CRATE
    return MOST_WORDS_OF.get(name)


def look_at_style(name, text, amiss):
    """Tells where a page with a limit is too long, or has a word that pages avoid."""
    most = most_words(name)
    if most is None:
        return
    count = len(text.split())
    if count > most:
        amiss.append(f"{name} has {count} words, more than {most}")
    for number, paragraph in paragraphs(text):
        words = len(paragraph.split())
        if words > MOST_WORDS_OF_A_PARAGRAPH:
            amiss.append(f"{name}:{number}: {words} words in a paragraph")
    for number, line in plain_lines(text):
        if len(line) > MOST_COLUMNS and not re.fullmatch(r"\s*(!?\[.*\]\(.*\).?|<.*>)\s*", line):
            amiss.append(f"{name}:{number}: {len(line)} columns")
        for word in AVOIDED.findall(re.sub(r"`[^`]*`|\([^)\s]*\)", "", line)):
            amiss.append(f"{name}:{number}: the word {word!r}")


def look_at_totals(texts, amiss):
    """Tells where the crates' READMEs, or the other pages, have too many words together."""
    totals = {"the crates' READMEs have": [0, MOST_WORDS_OF_CRATES], "the other pages have": [0, MOST_WORDS_OF_OTHERS]}
    crates, others = totals.values()
    for name, text in texts.items():
        (crates if name.startswith("crates/") else others)[0] += len(text.split())
    amiss.extend(f"{what} {words} words, more than {most}" for what, (words, most) in totals.items() if words > most)
