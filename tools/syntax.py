#!/usr/bin/env python3
"""Writes the files that are a line a kind of node from tools/grammar.txt: words, the table of the grammar, sorts, views, their
definitions, what the lowering covers, and the tables in docs/NOTATION.md and README.md. `python3 tools/syntax.py` writes them into the
repository; run `rt fmt` behind it.
`python3 tools/syntax.py --check` says whether they are up to date, spaces and line breaks aside."""
import functools
import itertools
import pathlib
import re
import sys
import textwrap

from grammar import read_grammar

ROOT = pathlib.Path(__file__).resolve().parent.parent
GRAMMAR = read_grammar()
SORTS = GRAMMAR.sorts
WORDS = GRAMMAR.words()
BY_HAND = ("Unit", "FunctionDeclaration", "FunctionExpression")  # sorts whose views stand in unit.rt and function_node.rt
SIZE = 512  # entries of the table of words
NOTE = "Written by tools/syntax.py from tools/grammar.txt."

# Leaves whose texts are those of a type with listed values: the definition of the text, and what it is.
CLOSED = {
    "VariableKind": ("variable_text", "The kind of a variable declaration"),
    "TypeKind": ("type_text", "The kind of a type"),
    "UnaryOperator": ("unary_text", "A unary operator"),
    "UpdateOperator": ("update_text", "An update operator"),
    "BinaryOperator": ("operator_text", "A binary operator"),
    "LogicalOperator": ("logical_text", "A logical operator"),
    "AssignmentOperator": ("assignment_text", "An assignment operator"),
}
# All leaves: the type in a view, the function that reads it, its plain tree in a definition, and what it is.
LEAVES = {
    "Text": ("&'b Text", "text_of", "Said {}.now", "A text"),
    "Flag": ("bool", "flag_of", "Flag {}", "A flag"),
    "ScalarValue": ("u32", "scalar_value_of", "Count {}", "A Unicode scalar value"),
    **{kind: (kind, "closed_of", f"Said ({text} {{}})", doc) for kind, (text, doc) in CLOSED.items()},
}
COUNTS = ["none", "one", "two", "three", "four", "five", "six"]


def camel(word):
    return word[0].upper() + word[1:]


def snake(name):
    return re.sub(r"(?<!^)([A-Z])", r"_\1", name).lower()


def used(names, text):
    """The names that stand in a text, in order."""
    return sorted(name for name in names if re.search(rf"(?<![\w.]){name}(?![\w])", text))


def called(names, text):
    """The functions that a text calls, in order."""
    return sorted(name for name in names if re.search(rf"(?<![\w.]){name}\(", text))


def shown(kind):
    """A kind of part in a spelling: a sort's name, or one capital word for a leaf."""
    return kind if kind in SORTS else "NUMBER" if kind == "ScalarValue" else re.findall("[A-Z][a-z]+", kind)[-1].upper()


def row(line):
    """The spelling of a node."""
    forms = {"One": "{}", "Maybe": "{}?", "Many": "[{}]"}
    return "(" + " ".join([line.word, *(forms[f.form].format(shown(f.kind)) for f in line.fields)]) + ")"


def comment(text, spelled="", indent=""):
    """A doc comment; the spelling of a node has a line of its own where the last line of the text is full."""
    *lines, last = textwrap.wrap(text, 126 - len(indent), break_on_hyphens=False)
    joined = f"{last} `{spelled}`" if spelled else last
    lines += [joined] if len(indent + joined) <= 126 else [last, f"`{spelled}`"]
    return "\n".join(f"{indent}/// {line}" for line in lines)


# Words.


def are_apart(keys, last, middle, length):
    """True if no two keys have one index by these weights."""
    seen = set()
    for a, b, c, d in keys:
        index = (a + last * b + middle * c + length * d) % SIZE
        if index in seen:
            return False
        seen.add(index)
    return True


@functools.cache
def hash_weights():
    """Weights of the last byte, the middle byte and the length, with which no two words have one index."""
    keys = [(ord(w[0]), ord(w[-1]), ord(w[len(w) // 2]), len(w) % 32) for w in WORDS]
    for total in range(3, 400):
        for last, middle in itertools.product(range(1, min(total - 1, 128)), repeat=2):
            length = total - last - middle
            if 0 < length < 64 and are_apart(keys, last, middle, length):
                return last, middle, length
    raise SystemExit("no weights tell all words apart")


def table_file():
    last, middle, length = hash_weights()
    at = {(ord(w[0]) + last * ord(w[-1]) + middle * ord(w[len(w) // 2]) + length * (len(w) % 32)) % SIZE: w for w in WORDS}
    rows = "\n".join(f"    {'Some(Word::' + camel(at[i]) + ')' if i in at else 'None'}," for i in range(SIZE))
    return filled("word_table.rt", {"NOTE": NOTE, "TABLE": rows})


def word_file():
    last, middle, length = hash_weights()
    counts = {}
    for word in WORDS:
        counts.setdefault(GRAMMAR.parts(word), []).append(word)
    usual = max(counts, key=lambda n: len(counts[n]))
    arm = lambda words: " | ".join(f"Word::{camel(w)}" for w in words)
    values = {
        "NOTE": NOTE,
        "VARIANTS": "\n".join(f"    /// `{w}`\n    {camel(w)}," for w in WORDS),
        "SIZE": str(SIZE), "LAST": str(last), "MIDDLE": str(middle), "LENGTH": str(length),
        "TEXTS": "\n".join(f'            Word::{camel(w)} => "{w}",' for w in WORDS),
        "SCOPES": "\n".join(f"            Word::{camel(w)} => true," for w in GRAMMAR.scopes),
        "PARTS": "\n".join(f"            {arm(ws)} => {n}," for n, ws in sorted(counts.items()) if n != usual) + f"\n            _ => {usual},",
    }
    return filled("word.rt", values)


def filled(template, values):
    """A template of tools/templates with the values put in for NAME in braces of percent signs."""
    text = (ROOT / "tools/templates" / f"{template}.txt").read_text()
    for name, value in values.items():
        text = text.replace(f"%{name}%", value)
    return text


def words_spec():
    return filled("Words.antt", {
        "NOTE": NOTE,
        "TEXTS": "\n".join(f'word_text word.{camel(w)} = codes "{w}"' for w in WORDS),
        "SCOPES": "\n".join(f"makes_scope word.{camel(w)} = true" for w in GRAMMAR.scopes),
    })


# The table of the grammar.


def kind_file():
    leaves = "\n".join(f"    /// {doc[3]}.\n    {kind}," for kind, doc in LEAVES.items())
    sorts = "\n".join(f"    /// {GRAMMAR.meanings[sort]}\n    {sort}," for sort in SORTS)
    return filled("kind.rt", {"NOTE": NOTE, "KINDS": leaves + "\n" + sorts})


def meaning(sort):
    """The meaning of a sort; of a sort of one kind of node, that of the kind too."""
    return " ".join([GRAMMAR.meanings[sort], *([SORTS[sort][0].meaning] if GRAMMAR.is_struct(sort) else [])])


def inner_sorts(sort):
    """The sorts of several words that a sort takes in; those of one word stand in its own rule by that word."""
    return [line for line in SORTS[sort] if line.inner and not GRAMMAR.is_struct(line.inner)]


def own_lines(sort):
    """The lines of a sort, a struct that it takes in by the struct's line."""
    return [SORTS[line.inner][0] if line.inner else line for line in SORTS[sort] if line not in inner_sorts(sort)]


def by_inner(inner, two, one, none):
    """The form for as many inner sorts as there are, with what is given of each put in."""
    return [none, one, two][len(inner)].format(*inner)


def rule_function(sort):
    arms = [f"        Word::{camel(line.word)} => Some(&[{', '.join(f'Field::{f.form}(Kind::{f.kind})' for f in line.fields)}])," for line in own_lines(sort)]
    inner = [f"{snake(line.inner)}_rule(word)" for line in inner_sorts(sort)]
    arms.append(f"        _ => {by_inner(inner, 'match {0} {{ Some(fields) => Some(fields), None => {1} }}', '{0}', 'None')},")
    return (f"/// The fields of the kind `{sort}`, by the word of a node.\nfn {snake(sort)}_rule(word: Word) -> Option<&'static [Field]>\n"
            f"    ensures {{ table_of result ≡ spec.{snake(sort)}_rule word }}\n{{\n    match word {{\n" + "\n".join(arms) + "\n    }\n}\n")


def rules_files():
    """The rules of expressions, targets and JSX, which take in no other sort, and in another file all others."""
    inner = [sort for module in ("expression", "expression_part", "target", "jsx") for sort in GRAMMAR.modules[module]]
    functions = lambda sorts: "\n".join(rule_function(sort) for sort in sorts)
    values = {"NOTE": NOTE, "INNER": ", ".join(sorted(f"{snake(sort)}_rule" for sort in inner)),
              "ARMS": "\n".join(f"        Kind::{sort} => {snake(sort)}_rule(word)," for sort in SORTS)}
    own = filled("expression_rules.rt", {**values, "RULES": functions(inner).replace("\nfn ", "\npub(crate) fn ")})
    return own, filled("rules.rt", {**values, "RULES": functions([sort for sort in SORTS if sort not in inner])})


def rule_spec(sort):
    lines = [f"-- The fields of the kind `{sort}`, by the word of a node.\nabbrev pub {snake(sort)}_rule : Word → Option (List Field)"]
    for line in own_lines(sort):
        fields = "".join(f"field.{f.form} kind.{f.kind} ∷ " for f in line.fields) + "[]"
        lines.append(f"{snake(sort)}_rule word.{camel(line.word)} = Some " + (f"({fields})" if line.fields else fields))
    inner = [f"{snake(line.inner)}_rule w" for line in inner_sorts(sort)]
    lines.append(f"{snake(sort)}_rule " + by_inner(inner, "w = first_rule ({0}) ({1})", "w = {0}", "_ = None"))
    return "\n".join(lines) + "\n"


def behind_inner():
    """The sorts, each behind those that it takes in."""
    order = []
    while len(order) < len(SORTS):
        order += [sort for sort in SORTS if sort not in order and all(not line.inner or line.inner in order for line in SORTS[sort])]
    return order


def rules_spec():
    return filled("Rules.antt", {"NOTE": NOTE, "RULES": "\n".join(rule_spec(sort) for sort in behind_inner()),
                                 "ARMS": "\n".join(f"rule kind.{sort} w = {snake(sort)}_rule w" for sort in SORTS)})


def rules_proof():
    few = "\n".join(f"{snake(sort)}_few : (w : Word) → few_fields ({snake(sort)}_rule w) ≡ true\n{snake(sort)}_few word.Unit = refl\n{snake(sort)}_few _ = refl\n" for sort in SORTS)
    arms = "\n".join(f"rule_few kind.{sort} w = {snake(sort)}_few w" for sort in SORTS)
    return filled("FewFields.antt", {"NOTE": NOTE, "RULES": ", ".join(f"{snake(sort)}_rule" for sort in SORTS), "FEW": few, "ARMS": arms})


def sort_file():
    text = lambda sort, doc: (f"/// The sort of `Kind::{sort}`.\n#[derive(Clone, Copy)]\npub struct {sort}Sort;\n\nimpl Sort for {sort}Sort {{\n    ghost kind = {{ kind.{sort} }};\n}}\n\n"
                              f"/// {doc}\npub type {sort}Tree<'b> = Tree<'b, {sort}Sort>;\n\n/// Trees of the sort `{sort}`, as the items of a list.\npub type {sort}Trees<'b> = Trees<'b, {sort}Sort>;\n")
    return filled("sort.rt", {"NOTE": NOTE, "SORTS": "\n".join([text("Text", "A text."), *(text(sort, GRAMMAR.meanings[sort]) for sort in SORTS)])})


# Views.


def view_type(field):
    if field.form == "Many":
        return f"{field.kind}Trees<'b>"
    plain = LEAVES[field.kind][0] if field.kind in LEAVES else f"{field.kind}Tree<'b>"
    return f"Option<{plain}>" if field.form == "Maybe" else plain


def value(field):
    if field.form == "Many":
        return f"Trees::new(items_of({field.name}))"
    if field.form == "Maybe":
        return f"optional_text({field.name})" if field.kind == "Text" else f"Tree::optional({field.name})"
    return f"{LEAVES[field.kind][1]}({field.name})" if field.kind in LEAVES else f"Tree::new({field.name})"


def plain(name, kind):
    return LEAVES[kind][2].format(name) if kind in LEAVES else f"syntax {name}.tree.now"


def piece(field, prefix):
    """The plain tree of a field, as a view shows it."""
    name = prefix + field.name
    if field.form == "Many":
        return f"(Listed (pieces_of (map syntax {name}.trees.now)))"
    return f"(maybe {name} (λ t. {plain('t', field.kind)}))" if field.form == "Maybe" else f"({plain(name, field.kind)})"


def node_text(line, at="at", prefix=""):
    parts = "End"
    for field in reversed(line.fields):
        parts = f"Then {piece(field, prefix)} " + (parts if parts == "End" else f"({parts})")
    return f"Node {at} word.{camel(line.word)} " + (parts if parts == "End" else f"({parts})")


def has_lifetime(sort):
    refers = lambda field: field.form != "One" or field.kind not in LEAVES or field.kind == "Text"
    return any(line.inner or any(refers(field) for field in line.fields) for line in SORTS[sort])


def noun(sort):
    """A few words for a tree of a sort: the beginning of the sort's meaning."""
    text = re.split("[(,:;.]", GRAMMAR.meanings[sort])[0].strip()
    return text[0].lower() + text[1:]


def field_doc(line, field):
    text = GRAMMAR.field_meaning(line, field)
    whole = text if text.endswith(".") else f"{text}, {noun(field.kind)}."
    return whole[:-1] + ", or none." if field.form == "Maybe" else whole


def fields_of(line, public, indent):
    """The fields of a view, with their doc comments."""
    at = ("Ids and span of the node.", "at", "At")
    docs = [at, *((field_doc(line, f), f.name, view_type(f)) for f in line.fields)]
    return "\n".join(f"{comment(doc, '', indent)}\n{indent}{public}{name}: {kind}," for doc, name, kind in docs)


def build_arm(line, made):
    """The arm of a view: it takes the parts of a node, and makes the view of them."""
    names = [field.name for field in line.fields]
    values = "".join(f", {f.name}: {value(f)}" for f in line.fields)
    if not names:
        return f"        Word::{camel(line.word)} => {made} {{ at }},"
    taken = names[0] if len(names) == 1 else "(" + ", ".join(names) + ")"
    return f"        Word::{camel(line.word)} => {{ let {taken} = {COUNTS[len(names)]}(parts); {made} {{ at{values} }} }}"


def struct_view(sort, life):
    line = SORTS[sort][0]
    rust = [f"{comment(meaning(sort), row(line))}\n#[derive(Clone, Copy)]\npub struct {sort}{life} {{\n{fields_of(line, 'pub ', '    ')}\n}}\n"]
    seen = [f"seen_{snake(sort)} v = {node_text(line, 'v.at', 'v.')}"]
    return rust, [build_arm(line, sort), "        _ => unreachable!(),"], seen


def enum_view(sort, life):
    rust, arms, seen, name = [f"{comment(meaning(sort))}\n#[derive(Clone, Copy)]\npub enum {sort}{life} {{"], [], [], snake(sort)
    for line in SORTS[sort]:
        if line.inner:
            rust.append(f"{comment(line.meaning, '', '    ')}\n    {line.variant}({line.inner}Tree<'b>),")
            seen.append(f"seen_{name} ({name}.{line.variant} inner) = syntax inner.tree.now")
            if GRAMMAR.is_struct(line.inner):
                arms.append(f"        Word::{camel(SORTS[line.inner][0].word)} => {sort}::{line.variant}(Tree::new(tree.tree)),")
            continue
        rust.append(f"{comment(line.meaning, row(line), '    ')}\n    {line.variant} {{\n{fields_of(line, '', '        ')}\n    }},")
        arms.append(build_arm(line, f"{sort}::{line.variant}"))
        seen.append(f"seen_{name} ({name}.{' '.join([line.variant, 'at', *(f.name for f in line.fields)])}) = {node_text(line)}")
    inner = [(line.inner, f"{sort}::{line.variant}(Tree::new(tree.tree))") for line in inner_sorts(sort)]
    two = "match rule(Kind::{0[0]}, word) {{ Some(_) => {0[1]}, None => {1[1]} }}"
    arms.append(f"        _ => {by_inner(inner, two, '{0[1]}', 'unreachable!()')},")
    return rust + ["}\n"], arms, seen


def view(sort):
    life, name = ("<'b>" if has_lifetime(sort) else ""), snake(sort)
    rust, arms, seen = (struct_view if GRAMMAR.is_struct(sort) else enum_view)(sort, life)
    rust.append(f"/// A level of a tree of the sort `{sort}`.\n#[tactic(auto, using(rl_grammar::proofs::Viewing::viewing))]\n"
                f"pub fn {name}_view(tree: {sort}Tree<'_>) -> {sort}{'<' + chr(39) + '_>' if life else ''}\n    ensures {{ seen_{name} result ≡ syntax tree.entry.tree.now }}\n{{\n"
                "    let (at, word, parts) = node_of(tree.tree);\n    match word {\n" + "\n".join(arms) + "\n    }\n}\n")
    return "\n".join(rust), f"abbrev pub seen_{name} : {sort} → Syntax\n" + "\n".join(seen) + "\n"


def views_of(module):
    return [sort for sort in GRAMMAR.modules[module] if sort not in BY_HAND]


def view_file(module):
    sorts = views_of(module)
    body = "\n".join(view(sort)[0] for sort in sorts)
    own = {f"{kind}{end}" for kind in [*SORTS, "Text"] for end in ("Tree", "Trees")}
    readers = ["items_of", "scalar_value_of", "closed_of", "optional_text", *COUNTS]
    lines = [f"//! {GRAMMAR.titles[module]}: views of one level. {NOTE}", "//! Types in backquotes are those of oxc_ast.", "", "ghost use Rattle.std.specs.Prelude.{◌≡◌};", "ghost use Rattle.rl_syntax.specs.Syntax.{syntax};",
             f"ghost use Rattle.rl_ast.specs.{camel_module(module)}Views.{{{', '.join(sorted('seen_' + snake(sort) for sort in sorts))}}};", ""]
    imports = [("rl_base::operator", used([k for k in CLOSED if k.endswith("Operator")], body)), ("rl_base::text", used(["Text"], body)),
               ("rl_base::type_kind", used(["TypeKind"], body)), ("rl_base::variable_kind", used(["VariableKind"], body)),
               ("rl_grammar::kind", used(["Kind"], body)), ("rl_grammar::parts", called(readers, body)), ("rl_grammar::rules", called(["rule"], body)),
               ("rl_grammar::sort", used(own, body)), ("rl_grammar::tree", used(["Tree", "Trees"], body)), ("rl_syntax::numbered", ["At"]), ("rl_syntax::parts", called(["flag_of", "node_of", "text_of"], body)), ("rl_syntax::word", ["Word"])]
    lines += [f"use {path}::{names[0] if len(names) == 1 else '{' + ', '.join(names) + '}'};" for path, names in imports if names]
    return "\n".join(lines) + "\n\n" + body


def camel_module(module):
    return "".join(camel(part) for part in module.split("_"))


def view_spec(module):
    sorts = views_of(module)
    body = "\n".join(view(sort)[1] for sort in sorts)
    texts = {text for text, _ in CLOSED.values()}
    lines = [f"-- The trees that views show, one level each. {NOTE}"]
    imports = [("Rattle.std.specs.Prelude", used(["map"], body)), ("Rattle.rl_base.specs.Operators", used(sorted(texts - {"type_text", "variable_text"}), body)),
               ("Rattle.rl_base.specs.TypeKinds", used(["type_text"], body)), ("Rattle.rl_base.specs.VariableKinds", used(["variable_text"], body)), ("Rattle.rl_grammar.specs.Fields", used(["maybe"], body)),
               ("Rattle.rl_syntax.specs.Syntax", ["Syntax", *used(["Node", "Listed", "Said", "Count", "Flag", "End", "Then", "pieces_of", "syntax"], body)])]
    lines += [f"use {path}.{{{', '.join(names)}}}" for path, names in imports if names]
    for sort in sorts:
        lines.append(f"use Rattle.rl_ast.specs.declared.{module}.{sort}.{{{sort}}}")
        if not GRAMMAR.is_struct(sort):
            lines.append(f"use Rattle.rl_ast.specs.declared.{module}.{sort}.TheVariants as {snake(sort)}")
    lines.append("use Rattle.rl_syntax.specs.declared.word.Word.TheVariants as word" if "word." in body else "")
    return "\n".join(line for line in lines if line) + "\n\n" + body


# The words that the lowering covers.


def covered_file():
    covered = GRAMMAR.covered()
    conditions = sorted({name for marks in covered.values() for name in marks})
    tests = {word: " && ".join(f"{name}(parts)" for name in marks) or "true" for word, marks in covered.items()}
    arms = [f"        Word::{camel(word)} => {tests.get(word, 'false')}," for word in WORDS]
    return filled("covered_words.rt", {"NOTE": NOTE, "CONDITIONS": ", ".join(conditions), "ARMS": "\n".join(arms)})


def covered_spec():
    conditions = sorted({name for marks in GRAMMAR.covered().values() for name in marks})
    clauses = [f"covers word.{camel(word)} parts = {' && '.join(f'{name} parts' for name in marks) or 'true'}" for word, marks in GRAMMAR.covered().items()]
    return filled("CoveredWords.antt", {"NOTE": NOTE, "CONDITIONS": ", ".join(conditions), "CLAUSES": "\n".join(clauses)})


def covered_table():
    """The covered words that have no condition in one line, and a row for those of each condition."""
    free = ", ".join(f"`{word}`" for word, marks in GRAMMAR.covered().items() if not marks)
    alike = {}
    for word, marks in GRAMMAR.covered().items():
        alike.setdefault(tuple(marks), []).append(f"`{word}`")
    rows = [f"| {', '.join(words)} | {' and '.join(GRAMMAR.conditions[name] for name in marks)} |" for marks, words in alike.items() if marks]
    return "\n".join(["| Nodes | Covered where |", "|---|---|", f"| {free} | always |", *rows]) + "\n"


# The tables in docs/NOTATION.md and README.md.


def notation_rows(sort):
    """The rows of a sort: one of a sort of one kind of node, or else one for the sort and one for each of its lines."""
    rows = [] if GRAMMAR.is_struct(sort) else [(f"**{sort}**", "", "", meaning(sort))]
    for line in SORTS[sort]:
        name, text = (f"**{sort}**", meaning(sort)) if GRAMMAR.is_struct(sort) else ("", line.meaning)
        rows.append((name, f"`{row(line)}`" if line.word else line.inner, ", ".join(field.name for field in line.fields), text))
    return ["| " + " | ".join(cell.replace("|", "\\|") for cell in cells) + " |" for cells in rows]


def notation_tables():
    """A table for each module, under its title."""
    tables = []
    for module, sorts in GRAMMAR.modules.items():
        rows = [line for sort in sorts for line in notation_rows(sort)]
        tables.append("\n".join([f"### {GRAMMAR.titles[module]}", "| Sort | Spelling | Fields | Meaning |", "|---|---|---|---|", *rows]))
    return "\n\n".join(tables) + "\n"


def page(path, tables):
    """The page with each table between the line of its name and the next line `<!-- end -->`."""
    text = (ROOT / path).read_text()
    for name, table in tables.items():
        text, count = re.subn(rf"(?s)(<!-- {name} -->\n).*?(<!-- end -->)", lambda m: m[1] + table + m[2], text)
        if count != 1:
            raise SystemExit(f"{path}: {count} parts between <!-- {name} --> and <!-- end -->, and not one")
    return text


def files():
    """Every file that is written, by its path."""
    out = {"crates/rl_syntax/src/word.rt": word_file(), "crates/rl_syntax/src/word_table.rt": table_file(), "crates/rl_syntax/specs/Words.antt": words_spec(),
           "crates/rl_grammar/src/kind.rt": kind_file(), "crates/rl_grammar/src/expression_rules.rt": rules_files()[0], "crates/rl_grammar/src/rules.rt": rules_files()[1],
           "crates/rl_grammar/src/sort.rt": sort_file(),
           "crates/rl_grammar/specs/Rules.antt": rules_spec(), "crates/rl_grammar/proofs/FewFields.antt": rules_proof(),
           "crates/rl_covered/src/covered_words.rt": covered_file(), "crates/rl_promises/specs/CoveredWords.antt": covered_spec(), "docs/NOTATION.md": page("docs/NOTATION.md", {"grammar": notation_tables(), "covered": covered_table()}),
           "README.md": page("README.md", {"covered": covered_table()})}
    for module in GRAMMAR.modules:
        if views_of(module):
            out[f"crates/rl_ast/src/{module}.rt"] = view_file(module)
            out[f"crates/rl_ast/specs/{camel_module(module)}Views.antt"] = view_spec(module)
    return out


def bare(text):
    """A text without what the layout changes: white space, and commas before a closing bracket."""
    return re.sub(r",(?=[\])}])", "", re.sub(r"\s+", "", text))


if __name__ == "__main__":
    if sys.argv[1:] not in ([], ["--check"]):
        sys.exit(__doc__)
    written = files()
    if sys.argv[1:] == ["--check"]:
        stale = [path for path, text in written.items() if not (ROOT / path).exists() or bare((ROOT / path).read_text()) != bare(text)]
        sys.exit(f"out of date, run tools/syntax.py: {' '.join(stale)}" if stale else 0)
    for path, text in written.items():
        (ROOT / path).parent.mkdir(parents=True, exist_ok=True)
        (ROOT / path).write_text(text)
