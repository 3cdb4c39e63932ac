#!/usr/bin/env python3
"""Respells this repository's own definitions and lemmas as today's Rattle spells names, once, on a tree that Rattle's port.py just made.

Own names are what crates/*/specs and crates/*/proofs declare (definitions, lemmas, constructors, fields) and aliases of `use` lines. A lowerCamel
name becomes snake case. At a dash both sides are looked up: where both are names of definitions (own ones of specs/, or of Rattle's libraries) the
dash stays, else it becomes `_`. What begins with a capital keeps it. Names of Rattle's libraries, names that Rattle makes (goals, steps, `c.x.ensures`)
and Rust's names stay. A function's proof gets the name FUNCTION_spec.

The new names are put in token by token: in all .antt, in clauses of .rt, in must-fail edits, and in names in backticks of comments and docs.
OVERRIDES has names that the rule would make fall together with others, or that fell together with a Rust function when port.py spelled them.
Where two names of one file would become one, nothing is written and the script ends with 1.

    tools/spell_names.py          respells the tree
    tools/spell_names.py --try    prints old and new names only
"""
import collections
import glob
import os
import re
import sys

ROOT = os.path.join(os.path.dirname(os.path.abspath(__file__)), "..")

# own name -> its new spelling, where the rule's would not do
OVERRIDES = {
    # a lemma that would have its function's name
    "ascii-upper": "ascii_upper_lem",
    "ascii-white": "ascii_white_lem",
    "by-style": "by_style_lem",
    "console-alike": "console_alike_lem",
    "hex-digit": "hex_digit_lem",
    "html-alike": "html_alike_lem",
    "in-style": "in_style_lem",
    "in_order": "in_order_lem",
    "is-less": "is_less_lem",
    "markdown-alike": "markdown_alike_lem",
    "roff-alike": "roff_alike_lem",
    "wanted-text": "wanted_text_lem",
    # others of one file that would be one
    "bodyEnd": "end_of_body",
    "roomAfter": "room_after_all",
    "so-far": "so_far_holds",
    "slice-ty": "input_ty",
    "slice-val": "input_val",
    # types
    "Accepted-at": "AcceptedAt",
    "All-valid": "AllValid",
    "Deep-at": "DeepAt",
    "Kept-at": "KeptAt",
    "Open-at": "OpenAt",
    "Other-at": "OtherAt",
    "So-far": "SoFar",
    "Valid-at": "ValidAt",
    "Valid-from": "ValidFrom",
    # aliases with a middle dot
    "Bool·beq": "beq",
    "List·getD-append": "get_or-append",
    "List·getD-eq-default": "get_or-eq_default",
    "List·getD-map": "get_or-map",
    "PosShare·left": "share_left",
    "PosShare·right": "share_right",
    "leb·zero": "leb-zero",
}

# parts of names that std uses as names, besides those that `use` lines import
STD = set("append add sub mul suc zero nil cons drop take length reverse map".split())

# spellings from before port.py that docs, comments and edits still have -> port.py's
OLDER = {
    "after-write": "after_write",
    "answerOf": "answer_of",
    "backIn": "back_in",
    "by-answer": "by_answer",
    "callOf": "call_of",
    "chunkOf": "chunk_of",
    "chunksOf": "chunks_of",
    "compared-same": "compared_same",
    "countOf": "count_of",
    "emptyBlock": "empty_block",
    "endOf": "end_of",
    "entryOf": "entry_of",
    "firstOf": "first_of",
    "from-nothing": "from_nothing",
    "inBlock": "in_block",
    "kindOf": "kind_of",
    "known-next": "known_next",
    "last-line": "last_line",
    "lineOf": "line_of",
    "listOf": "list_of",
    "madeOf": "made_of",
    "mapsTo": "maps_to",
    "none-first": "none_first",
    "numberIn": "number_in",
    "one-answer": "one_answer",
    "one-list": "one_list",
    "one-place": "one_place",
    "one-told": "one_told",
    "openIn": "open_in",
    "orZero": "or_zero",
    "pageOf": "page_of",
    "partOf": "part_of",
    "passed-over": "passed_over",
    "pieceAt": "piece_at",
    "placeIn": "place_in",
    "rows-are": "rows_are",
    "settledOf": "settled_of",
    "shapeOf": "shape_of",
    "sizeOf": "size_of",
    "soFar": "so_far",
    "startOf": "start_of",
    "step-same": "step_same",
    "tallyOf": "tally_of",
    "withGap": "with_gap",
}

SEPARATORS = r"\s(){}.,;@\""
TOKEN = re.compile(r"--[^\n]*|\"(?:\\.|[^\"\\\n])*\"|[^%s]+" % SEPARATORS)
RUST_TOKEN = re.compile(r"//[^\n]*|b?\"(?:\\.|[^\"\\])*\"|'(?:\\.[^']*|[^'\\])'|[^%s]+" % SEPARATORS)
WORDS = "pub|abbrev|unfoldable|opaque|private"
DECLARED = re.compile(r"((?:(?:%s) +)*)([^%s:]+(?:\s*,\s*[^%s:]+)*) +:(?: |$)" % (WORDS, SEPARATORS, SEPARATORS))
HEADED = re.compile(r"(?:(?:%s) +)*(data|record|module)\b +([^%s]+)" % (WORDS, SEPARATORS))
USE = re.compile(r"(?m)^[ ]*(?:(?:pub|unfoldable|ghost) +)*use +([^{};\n]*)(?:\{([^}]*)\})?[^\n;]*")


def read(path):
    with open(path, encoding="utf-8") as file:
        return file.read()


def found(*names):
    return sorted(glob.glob(os.path.join(ROOT, *names), recursive=True))


def module_of(path):
    parts = os.path.relpath(path, os.path.join(ROOT, "crates"))[: -len(".antt")].split(os.sep)
    return ".".join(["Rattle"] + parts)


def is_walk(path):
    """Whether it is a function's proof, and so cites names that Rattle makes."""
    return os.path.basename(path) in ("Proof.antt", "Answers.antt", "Invariants.antt") and os.sep + "proofs" + os.sep in path


def declarations(text):
    """(kind, name, type) of what a module declares; not what is local to a definition."""
    stack = []
    for line in text.split("\n"):
        bare = re.sub(r"(^| )--( .*|$)", "", line)
        if not bare.strip():
            continue
        indent = len(bare) - len(bare.lstrip())
        bare = bare.strip()
        while stack and stack[-1][0] >= indent:
            stack.pop()
        parent = stack[-1] if stack else None
        entry = [indent, None, False]
        opens = bare == "where" or bare.endswith(" where")
        if parent is None or parent[2]:
            head = HEADED.match(bare)
            inner = parent[1] if parent else "module"
            if head:
                entry[1] = head.group(1)
                entry[2] = opens
                if head.group(1) != "module":
                    yield "type", head.group(2), ""
            elif not re.match(r"(?:(?:%s) +)*(use|mod|infix|infixl|infixr|unfolding|let)\b" % WORDS, bare):
                m = DECLARED.match(bare)
                if m:
                    kind = {"module": "word", "data": "constructor", "record": "field"}[inner]
                    for name in m.group(2).split(","):
                        yield kind, name.strip(), bare[m.end():].strip()
        elif opens and parent[1]:
            parent[2] = True
        stack.append(entry)


def uses(text):
    """(module, [(name, alias or None)], alias of the module) of each use line."""
    for m in USE.finditer(text):
        path, alias = m.group(1).strip(), None
        if " as " in path:
            path, alias = (x.strip() for x in path.split(" as "))
        names = []
        for part in (m.group(2) or "").split(","):
            if part.strip():
                name, _, other = part.strip().partition(" as ")
                names.append((name.strip(), other.strip() or None))
        yield path.rstrip("."), names, alias


def snake(part):
    if not re.search(r"[a-z]", part) or part[0].isupper():
        return part
    part = re.sub(r"([a-z0-9])([A-Z])", r"\1_\2", part)
    return re.sub(r"([A-Z]+)([A-Z][a-z])", r"\1_\2", part).lower()


def spelled(name, definitions):
    if "◌" in name or not re.search(r"[a-z]", name):
        return name
    parts = [snake(x) for x in name.split("-")]
    if "" in parts:
        return name
    out = parts[0]
    for a, b in zip(parts, parts[1:]):
        out += ("-" if a in definitions and b in definitions else "_") + b
    return out


class Tree:
    def __init__(self):
        self.antt = {path: read(path) for path in found("crates", "**", "*.antt")}
        self.rust = {path: read(path) for path in found("crates", "**", "*.rt")}
        self.modules = {module_of(path) for path in self.antt}
        self.library, self.own, self.fields, definitions = set(), set(), set(), set(STD)
        self.kept = collections.defaultdict(set)  # names of goals, by file
        self.proofs = {}
        for path, text in list(self.antt.items()) + list(self.rust.items()):
            for module, names, _ in uses(text):
                for name, alias in names:
                    if module not in self.modules:
                        self.library.add(name)
                    if alias:
                        self.own.add(alias)
        for path, text in self.antt.items():
            specs = os.sep + "specs" + os.sep in path
            for kind, name, type_ in declarations(text):
                if is_walk(path) and (".Need-" in type_ or (os.sep + "+" in path and not name.endswith("-spec")) or re.match(r"(invariant|decreases|returns|loop)\b", name)):
                    self.kept[path].add(name)
                    continue
                if is_walk(path) and re.sub("-", "_", name) == os.path.basename(os.path.dirname(path)) + "_spec":
                    self.proofs[name] = os.path.basename(os.path.dirname(path)) + "_spec"
                    continue
                self.own.add(name)
                if kind == "field":
                    self.fields.add(name)
                elif specs:
                    definitions.add(OVERRIDES.get(name, spelled(name, set())))
        definitions |= {name for name in self.library if "-" not in name}
        self.names = {}
        self.left = sorted(name for name in self.own & self.library if spelled(name, definitions) != name and name not in OVERRIDES)
        for name in sorted(self.own):
            if name in OVERRIDES:
                self.names[name] = OVERRIDES[name]
            elif name not in self.library and spelled(name, definitions) != name:
                self.names[name] = spelled(name, definitions)
        self.names.update((a, b) for a, b in self.proofs.items() if a != b)
        self.cited = dict(self.names)
        for old, name in OLDER.items():
            self.cited.setdefault(old, self.names.get(name, name))


def in_backticks(text, names):
    def span(m):
        return re.sub(r"[^%s`/]+" % SEPARATORS, lambda t: names.get(t.group(0), t.group(0)), m.group(0))

    text = re.sub(r"`[^`\n]+`", span, text)
    return re.sub(r"(?<=\bfield )[a-z]\w*[A-Z]\w*", lambda t: names.get(t.group(0), t.group(0)), text)


def aliases(tree, text):
    own, other = set(), set()
    for module, _, alias in uses(text):
        if alias:
            (own if module in tree.modules else other).add(alias)
    return own, other


def ghost_parts(text):
    """The parts of a Rust source that are ghost: use lines, clauses, ghost fields."""
    spans = [(m.start(), m.end()) for m in re.finditer(r"(?m)^[ ]*(?:pub )?ghost use[^;]*;", text)]
    for m in re.finditer(r"(?:\b(?:requires|ensures|invariant|decreases|also_owns|also_shares)\b[^{\n]*|\bghost \w+: *)\{", text):
        if "//" in text[text.rfind("\n", 0, m.start()) + 1: m.start()]:
            continue
        depth, at = 1, m.end()
        while depth and at < len(text):
            depth += {"{": 1, "}": -1}.get(text[at], 0)
            at += 1
        spans.append((m.end(), at))
    return spans


def respelled(tree, path, text, names, rust, seen=None):
    """The text with its names respelled; `seen` gets (place of use, old, new) of each token."""
    own, other = aliases(tree, text)
    kept = tree.kept.get(path, set())
    paths = []
    for m in USE.finditer(text):
        paths.append((m.start(), m.end(1)))
    ghost = ghost_parts(text) if rust else None
    out, last = [], 0
    for m in (RUST_TOKEN if rust else TOKEN).finditer(text):
        token, at = m.group(0), m.start()
        if token.startswith("//" if rust else "--"):
            new = in_backticks(token, tree.cited)
        elif token[0] == '"' or token.startswith('b"') or any(a <= at < b for a, b in paths):
            continue
        elif rust and not any(a <= at < b for a, b in ghost):
            new = token
            # Rattle's own crates have a function and the word of its clause under one name; a parameter would hide the word
            called = re.match(r"\(|::|!", text[m.end():m.end() + 2]) or re.search(r"(::|\.|\bfn |\buse [\w:]*\{?[\w, ]*)$", text[max(0, at - 200):at])
            if seen is not None and not called and re.fullmatch(r"\w+", token):
                seen.append(("rust", token, token))
        else:
            new = names.get(token, token)
            place = "word"
            if token in kept:
                new = token
            if token in own | other:
                new, place = token, "word"
            if at and text[at - 1] == "." and at > 1 and not text[at - 2].isspace():
                place = "field"
                head = re.search(r"([^%s]+)\.$" % SEPARATORS, text[max(0, at - 200):at])
                head = head.group(1) if head else ""
                if head in own:
                    place = "member"
                elif token not in tree.fields or head in other or (is_walk(path) and re.search(r"(^|[%s])(c|tie)(\.[^%s]+)*\.$" % (SEPARATORS, SEPARATORS), text[max(0, at - 300):at])):
                    new = token
            if seen is not None:
                seen.append((place, token, new))
        if new != token:
            out.append(text[last:at])
            out.append(new)
            last = m.end()
    out.append(text[last:])
    return re.sub(r"([^\s,{]+) as \1(?=[,}])", r"\1", "".join(out))


def faults(tree):
    said = []
    for path, text in sorted(list(tree.antt.items()) + list(tree.rust.items())):
        rust = path.endswith(".rt")
        seen = []
        respelled(tree, path, text, tree.names, rust, seen)
        for places in (("word", "rust"), ("field",)):
            by = collections.defaultdict(set)
            for place, old, new in seen:
                if place in places:
                    by[new].add(old)
            for new, olds in sorted(by.items()):
                pairs = {frozenset((a, b)) for _, names, _ in uses(text) for a, b in names if b}
                if len(olds) > 1 and frozenset(olds) not in pairs:
                    said.append((" and ".join(sorted(olds)), os.path.relpath(path, ROOT)))
                elif rust and any(p == "word" and o != n and n == new for p, o, n in seen) and ("rust", new, new) in seen:
                    said.append((new, os.path.relpath(path, ROOT)))
    return said


def main():
    tree = Tree()
    if "--try" in sys.argv[1:]:
        for old, new in sorted(tree.names.items()):
            print(old, "->", new)
    said = faults(tree)
    by = collections.defaultdict(list)
    for what, path in said:
        by[what].append(path)
    for what, paths in sorted(by.items()):
        print("would fall together: %s, in %s" % (what, " ".join(paths[:6])), file=sys.stderr)
    for name in tree.left:
        print("left, as a library has this name: %s" % name, file=sys.stderr)
    if by:
        sys.exit(1)
    if "--try" in sys.argv[1:]:
        return
    written = 0

    def write(path, before, after):
        nonlocal written
        if before != after:
            written += 1
            with open(path, "w", encoding="utf-8") as file:
                file.write(after)

    for path, text in sorted(tree.antt.items()):
        write(path, text, respelled(tree, path, text, tree.names, False))
    for path, text in sorted(tree.rust.items()):
        write(path, text, respelled(tree, path, text, tree.names, True))
    for path in found("crates", "*", "must-fail", "*.edit"):
        before, antt = read(path), False
        lines = before.split("\n")
        for i, line in enumerate(lines):
            if line.startswith("file:"):
                antt = line.endswith(".antt")
            elif line.startswith("#"):
                lines[i] = in_backticks(line, tree.cited)
            elif re.match(r"(old|new):", line) and (antt or re.search(r"[a-z][A-Z-]", line)):
                label, _, rest = line.partition(":")
                part = re.compile(r"\"(?:\\.|[^\"\\])*\"|[^%s]+" % SEPARATORS)
                lines[i] = label + ":" + part.sub(lambda t: tree.cited.get(t.group(0), t.group(0)) if antt or re.search(r"[A-Z-]", t.group(0)) else t.group(0), rest)
        write(path, before, "\n".join(lines))
    for path in found("docs", "**", "*.md") + found("README.md") + found("crates", "**", "*.md"):
        before = read(path)
        write(path, before, in_backticks(before, tree.cited))
    for name in ("check-names", "check-rules"):
        for path in found("tools", name):
            before = read(path)
            write(path, before, re.sub(r"\b[a-z]\w*[A-Z]\w*", lambda m: tree.cited.get(m.group(0), m.group(0)), before))
    print("%d names, %d files" % (len(tree.names), written))


main()
