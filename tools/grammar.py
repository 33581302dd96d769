"""The table of the grammar, read from grammar.txt."""
import dataclasses
import itertools
import pathlib
import re


@dataclasses.dataclass
class Field:
    """A part of a node: its name, its kind, and its form (One, Maybe or Many)."""

    name: str
    kind: str
    form: str


@dataclasses.dataclass
class Line:
    """A kind of node of a sort (`word` and `fields`), or another sort that the sort takes in (`inner`). `marks` are the conditions under
    which the lowering covers it, none if it always does; it is None of a line that does not say so."""

    sort: str
    variant: str
    word: str | None
    fields: list[Field]
    inner: str | None
    meaning: str
    marks: list[str] | None = None


@dataclasses.dataclass
class Grammar:
    """The lines of each sort; the sorts and the title of each module; what each sort and each field is, fields by their name or
    by WORD.NAME; what each condition of a mark is; and the words that make a scope."""

    sorts: dict[str, list[Line]]
    modules: dict[str, list[str]]
    titles: dict[str, str]
    meanings: dict[str, str]
    fields: dict[str, str]
    conditions: dict[str, str]
    scopes: list[str]

    def field_meaning(self, line, field):
        """The meaning of a field; without a full stop, that of the field's sort is to follow it."""
        return self.fields.get(f"{line.word}.{field.name}") or self.fields.get(field.name)

    def words(self):
        """All words, in the order of the table."""
        return list(dict.fromkeys(line.word for lines in self.sorts.values() for line in lines if line.word))

    def covered(self):
        """The conditions of each word that the lowering covers, in the order of the table of words."""
        marked = {line.word: line.marks for lines in self.sorts.values() for line in lines if line.marks is not None}
        return {word: marked[word] for word in self.words() if word in marked}

    def is_struct(self, sort):
        """True of a sort of one kind of node."""
        return len(self.sorts[sort]) == 1 and self.sorts[sort][0].word is not None

    def parts(self, word):
        """The largest number of parts of a node of this word."""
        return max(len(line.fields) for lines in self.sorts.values() for line in lines if line.word == word)


def field_of(text):
    name, kind = text.split(":")
    form = "Many" if kind[0] == "[" else "Maybe" if kind[-1] == "?" else "One"
    return Field(name, kind.strip("[]?"), form)


def line_of(text):
    row, _, meaning = text.partition(" -- ")
    sort, variant, word, *rest = row.split()
    if word == "=":
        return Line(sort, variant, None, [], rest[0], meaning.strip())
    marks = [it[1:] for it in rest if it[0] == "+"]
    fields = [field_of(it) for it in rest if it[0] != "+"]
    return Line(sort, variant, word, fields, None, meaning.strip(), [it for it in marks if it] if marks else None)


def read_grammar():
    """The table; it ends the script where a sort has one word twice, a word is spelled otherwise than in letters or has marks in two
    lines, or something has no meaning."""
    grammar = Grammar({}, {}, {}, {}, {}, {}, [])
    named = {"@": grammar.meanings, ".": grammar.fields, "+": grammar.conditions}
    module = None
    for text in (pathlib.Path(__file__).resolve().parent / "grammar.txt").read_text().splitlines():
        if text.startswith("== "):
            module, _, title = text[3:].partition(" ")
            grammar.titles[module], grammar.modules[module] = title, []
        elif text[:1] in named:
            name, _, meaning = text[1:].partition(" ")
            named[text[0]][name] = meaning.strip()
        elif text.startswith("!scopes "):
            grammar.scopes = text.split()[1:]
        elif text.strip() and not text.startswith("#"):
            line = line_of(text)
            if line.sort not in grammar.sorts:
                grammar.modules[module].append(line.sort)
            grammar.sorts.setdefault(line.sort, []).append(line)
    check(grammar)
    return grammar


def words_of(grammar, sort):
    """The words of a sort, those of the sorts that it takes in included."""
    for line in grammar.sorts[sort]:
        yield from [line.word] if line.word else words_of(grammar, line.inner)


def check(grammar):
    for sort in grammar.sorts:
        words = list(words_of(grammar, sort))
        assert len(words) == len(set(words)), f"a word stands twice in {sort}"
        assert sort in grammar.meanings, f"the sort {sort} has no meaning"
    assert all(re.fullmatch("[a-z]+", word) for word in grammar.words())
    for line in itertools.chain(*grammar.sorts.values()):
        assert line.meaning, f"{line.variant} of {line.sort} has no meaning"
        assert all(grammar.field_meaning(line, field) for field in line.fields), f"a field of {line.word} has no meaning"
        assert all(name in grammar.conditions for name in line.marks or []), f"a condition of {line.word} has no meaning"
    marked = [line.word for line in itertools.chain(*grammar.sorts.values()) if line.marks is not None]
    assert len(marked) == len(set(marked)), "a word has marks in two lines"
