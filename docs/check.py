#!/usr/bin/env python3
"""Checks what the documents cite: that each file stands there, that each link leads to a page and a heading, that each name in backquotes
is a word of the crates' files, that each snippet stands in the file that a comment `<!-- from FILE -->` in front of it names, white
space aside, and that each row of refusals and stops has the category and a message of rl_base's table. A line `// ..` of a snippet
stands for lines that it leaves out. Checks too that docs/PROVING.md has a row for each edit that must be refused, and that the lines
which an edit replaces stand once in their file. Prints what is missing, and ends with status 1 where something is."""
import pathlib, re, sys

TOP = pathlib.Path(__file__).resolve().parent.parent
PAGES = [TOP / "README.md", *sorted((TOP / "docs").glob("*.md"))]
# Names of the original, of the toolchain, and of lemmas by pattern.
OUTSIDE = set(
    "ArenaVec CloneIn LValue LValuePattern FloatValue OxcDiagnostic aliasing_effects name_hint phis reactive "
    "expect unwrap x0 hyperfine in-Variant decreases-NAME".split()
)
SNIPPET = re.compile(r"<!-- from ([\w/.+-]+) -->\n```\w*\n(.*?)^```", re.M | re.S)
EDITS = {f"{it.parent.parent.name}/{it.stem}": it for it in TOP.glob("crates/*/*/*.edit")}


def missing_files(text):
    """Files named by a path in backquotes, and files of specs/ named in a table by their crate and their names."""
    for name in re.findall(r"`((?:[\w.+-]+/)+[\w.+-]+)`", text):
        places = [TOP / name, TOP / "docs" / name, TOP / "crates" / name, *TOP.glob(f"crates/*/proofs/{name}")]
        built = "out" in name.split("/")
        if not built and name not in EDITS and not any(it.exists() for it in places):
            yield name
    for crate, names in re.findall(r"^\| \**(rl_\w+) ([A-Z]\w+(?:, [A-Z]\w+)*)\** \|", text, re.M):
        for name in names.split(", "):
            if not (TOP / f"crates/{crate}/specs/{name}.antt").exists():
                yield f"crates/{crate}/specs/{name}.antt"


def headings(page):
    """The anchors of a page: of each heading its words in small letters, with hyphens between them."""
    found = re.findall(r"^#+ (.*)$", page.read_text(), re.M)
    return {re.sub(r"[^\w\- ]", "", it.strip().lower()).replace(" ", "-") for it in found}


def broken_links(page, text):
    """Links of a page that lead to no file, or to no heading of one."""
    for link in re.findall(r"\]\((?!https?:)([^)]*)\)", text):
        file, _, anchor = link.partition("#")
        target = page.parent / file if file else page
        if not target.exists() or anchor and anchor not in headings(target):
            yield f"a link leads nowhere: {link}"


def missing_names(text, words):
    for name in re.findall(r"`([A-Za-z_][\w:.-]*)`", text):
        for part in re.split(r"::|\.", name):
            if part and part not in words:
                yield name


def strayed_snippets(text):
    """Parts of snippets that do not stand in their file, in this order."""
    snippets = SNIPPET.findall(text)
    if len(snippets) != text.count("<!-- from "):
        yield "a comment names a file, and no snippet follows it at once"
    for file, code in snippets:
        source = " ".join((TOP / file).read_text().split()) if (TOP / file).exists() else ""
        behind = 0
        for part in re.split(r"^\s*// \.\.$", code, flags=re.M):
            wanted = " ".join(part.split())
            at = source.find(wanted, behind) if wanted else -1
            if at < 0:
                yield f"a snippet does not stand in {file}: {wanted[:60]}"
                break
            behind = at + len(wanted)


def other_rows(text):
    """Rows of a table of refusals or stops with another category or message than `rl_base/specs/Rows.antt` has."""
    table = (TOP / "crates/rl_base/specs/Rows.antt").read_text()
    categories = dict(re.findall(r"^category_of rows\.(\w+) = categories\.(\w+)$", table, re.M))
    messages = dict(re.findall(r'^message_template rows\.(\w+) word = codes "(.*)"$', table, re.M))
    by_word = re.findall(r'codes "([^"]{20,})"', re.search(r"^continue_message word =.*?\n\n", table, re.M | re.S)[0])
    for row, category, told in re.findall(r"^\| ([FS]\d+) \| (\w+) \|.*?([^|]*(?:\\\|[^|]*)*) \|\s*$", text, re.M):
        message = re.sub(r"\\([`|])", r"\1", told).strip()
        if category != categories.get(row) or message not in ([messages[row]] if row in messages else by_word):
            yield f"row {row} is not as in rl_base/specs/Rows.antt: {category}, {message}"


def strayed_edits(text):
    """Edits without a row in a page, rows without an edit, and edits whose lines do not stand once in their file."""
    rows = set(re.findall(r"^\| `(\w+/\w+)` \|", text.partition("## Edits that must be refused")[2], re.M))
    yield from (f"an edit without a row, or a row without an edit: {it}" for it in rows ^ set(EDITS))
    for name, edit in EDITS.items():
        for key, value in re.findall(r"^(file|old): (.*)$", edit.read_text(), re.M):
            if key == "file":
                source = edit.parent.parent / value
            elif not source.is_file() or source.read_text().count(value) != 1:
                yield f"the edit {name} does not apply to {source.relative_to(TOP)}"


def words_of_crates():
    """The words of the crates' files, and the names of crates."""
    files = [it for kind in ("rt", "antt") for it in TOP.glob(f"crates/*/*/**/*.{kind}") if "out" not in it.parts]
    words = {it.name for it in (TOP / "crates").iterdir()}
    for file in files:
        words |= set(re.findall(r"[A-Za-z_][\w-]*", file.read_text()))
    return words


def main():
    words, found = words_of_crates(), False
    for page in PAGES:
        text = page.read_text()
        told = {*missing_files(text), *broken_links(page, text), *missing_names(text, words | OUTSIDE), *strayed_snippets(text), *other_rows(text)}
        told |= set(strayed_edits(text)) if page.name == "PROVING.md" else set()
        for what in sorted(told):
            found = True
            print(f"{page.relative_to(TOP)}: {what}")
    for name in sorted(OUTSIDE & words):
        found = True
        print(f"docs/check.py: a word of the crates' files stands in OUTSIDE: {name}")
    sys.exit(found)


main()
