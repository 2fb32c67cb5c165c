# Reads the definitions of specs/: their expressions with the places where these stand, their types, and which of them a public promise
# reaches. It reads as much of antt as they are written in, and stops where it meets more.
import re
from collections import namedtuple
from pathlib import Path

ROOT = Path(__file__).resolve().parent.parent
CRATES = ROOT / "crates"

# The crates that hold the definitions, and in them what a public promise is made of: these and what they mention are changed.
DEFINING = "words roll rules journal refusals kiosk again listing flat twins board".split()
ROOTS = {
    "kiosk": "Says Opens Makes create put open_journal last_group",
    "again": "Wakes wake SaysAgain say_again",
    "listing": "Prints printed listing",
    "flat": "kiosk_number input_number layout",
    "board": "Creates board_create Opens board_open SaysAgain board_again Says board_put last_part Lists board_list",
}

# The file of what the contracts of inner functions are written in.
IN_CONTRACTS = "InContracts"

# The enums of the library that definitions use, with what each variant carries; where that is a type of the definition's own, None.
LIBRARY_VARIANTS = {"std.Option": {"None": [], "Some": [None]}, "std.Result": {"Ok": [None], "Err": [None]}}

# Fields are taken for each other where antt sees one type: a ℕ for any other. In a struct with more fields than this, only where the
# code declares one type.
LONG = 8


class Unreadable(Exception):
    pass


# ---- Text to expressions

WORD = r"«[^»]*»|[^\s(){}\[\];.]+"
TOKEN = re.compile(rf"--[^\n]*|\[\]|[(){{}}\[\];]|\.(?:{WORD})|{WORD}|\.")
# Loosest first; what is in one row is not told apart.
OPERATORS = [["→", "×", "⊎"], ["≡", "≢", "≤", "<", "=="], ["||"], ["&&"], ["∷", "++"], ["+", "-"], ["*", "/", "%"], ["^"]]
OPERATOR = {word for row in OPERATORS for word in row}
STOP = {None, "(", "{", "[", ")", "}", "]", ";", "then", "else", "in", "|", "↦", "=", ":"}

Token = namedtuple("Token", "text start end column")


def tokens_of(text):
    found = [m for m in TOKEN.finditer(text) if not m.group().startswith("--")]
    return [Token(m.group(), m.start(), m.end(), m.start() - text.rfind("\n", 0, m.start()) - 1) for m in found]


# kind: name, number, field (of a projection), paren, apply, chain (operands of one operator), if, let, lambda, elim, record. A projection
# `k.state.log` is an apply of `k` to its fields. `names` are what a let or a lambda binds, the patterns of an elim, the fields of a record,
# the operators of a chain.
class Node:
    def __init__(self, kind, start, end, parts=(), text="", names=()):
        self.kind, self.start, self.end, self.parts, self.text, self.names = kind, start, end, list(parts), text, list(names)

    def is_call(self, name):
        return self.kind == "apply" and self.parts[0].text == name


# `modules` are the names under which a file brings in whole files: what follows such a name and a dot is no field.
class Reader:
    def __init__(self, tokens, modules=()):
        self.tokens, self.modules, self.at = tokens, modules, 0

    def peek(self):
        return self.tokens[self.at].text if self.at < len(self.tokens) else None

    def take(self, wanted=None):
        if self.peek() is None or wanted not in (None, self.peek()):
            raise Unreadable(f"`{wanted or 'more'}` is expected and not `{self.peek()}`")
        self.at += 1
        return self.tokens[self.at - 1]

    def whole(self):
        node = self.expression()
        return node if self.peek() is None else self.take("the end")

    def expression(self):
        operands, operators = [self.operand()], []
        while self.peek() in OPERATOR:
            operators.append(self.take().text)
            operands.append(self.operand())
        return grouped(operands, operators)

    def after(self, keyword):
        self.take(keyword)
        return self.expression()

    def operand(self):
        special = {"if": self.choice, "let": self.let, "λ": self.function, "elim": self.elim}.get(self.peek())
        if special:
            return special(self.tokens[self.at].start)
        parts = [self.atom()]
        while self.peek() == "(" or self.peek() not in STOP | OPERATOR:
            parts.append(self.atom())
        return parts[0] if len(parts) == 1 else Node("apply", parts[0].start, parts[-1].end, parts)

    def choice(self, start):
        parts = [self.after(keyword) for keyword in ("if", "then", "else")]
        return Node("if", start, parts[2].end, parts)

    def let(self, start):
        self.take("let")
        name = self.take().text
        parts = [self.after("="), self.after("in")]
        return Node("let", start, parts[1].end, parts, names=[name])

    def function(self, start):
        self.take("λ")
        names = []
        while self.peek() != ".":
            names.append(self.take().text)
        body = self.after(".")
        return Node("lambda", start, body.end, [body], names=names)

    def elim(self, start):
        self.take("elim")
        parts, patterns = [self.atom()], []
        self.take("[")
        while self.peek() == "|":
            patterns.append(self.after("|"))
            parts.append(self.after("↦"))
        return Node("elim", start, self.take("]").end, parts, names=patterns)

    # an atom with the fields that stand right behind it
    def atom(self):
        parts = [self.bare()]
        while parts[0].kind != "number" and self.is_tight(parts[-1].end):
            token = self.take()
            parts.append(Node("field", token.start, token.end, text=token.text))
        return parts[0] if len(parts) == 1 else Node("apply", parts[0].start, parts[-1].end, parts)

    def is_tight(self, end):
        return self.at < len(self.tokens) and self.tokens[self.at].start == end and len(self.peek()) > 1 and self.peek().startswith(".")

    def bare(self):
        token = self.take()
        if token.text == "(":
            inner = self.expression()
            return Node("paren", token.start, self.take(")").end, [inner])
        if token.text == "record":
            self.take("{")
            names, values = [], []
            while self.peek() != "}":
                names.append(self.take().text)
                values.append(self.after("="))
                if self.peek() != "}":
                    self.take(";")
            return Node("record", token.start, self.take("}").end, values, names=names)
        if token.text in STOP | OPERATOR:
            raise Unreadable(f"`{token.text}` begins nothing")
        if token.text in self.modules and self.is_tight(token.end):
            return Node("name", token.start, self.take().end, text=token.text + self.tokens[self.at - 1].text)  # a name with its file's
        return Node("number" if token.text.isdigit() else "name", token.start, token.end, text=token.text)


def grouped(operands, operators):
    for row in OPERATORS:
        cuts = [k for k, word in enumerate(operators) if word in row]
        if cuts:
            edges = [-1] + cuts + [len(operators)]
            parts = [grouped(operands[a + 1 : b + 1], operators[a + 1 : b]) for a, b in zip(edges, edges[1:])]
            return Node("chain", parts[0].start, parts[-1].end, parts, operators[cuts[0]], [operators[k] for k in cuts])
    return operands[0]


def words_of(tokens):
    return [t.text for t in tokens]


# some tokens, cut at those outside of brackets that are the separator: at each, or at the first `most`
def split(tokens, separator, most=-1):
    parts, depth = [[]], 0
    for t in tokens:
        depth += (t.text in ("(", "{", "[")) - (t.text in (")", "}", "]"))
        if depth == 0 and t.text == separator and len(parts) != most + 1:
            parts.append([])
        else:
            parts[-1].append(t)
    return parts


# ---- Files to definitions

# A definition by clauses ("function"), a record or a data type. `type` is its arguments' types and its result's, `mentions` the words
# of its signature, `bodies` the left and the right side of each clause, or of each field of a promise: a record with parameters.
class Definition:
    def __init__(self, file, name, kind):
        self.file, self.name, self.kind = file, name, kind
        self.type, self.mentions, self.bodies, self.parameters = [], [], [], {}


class File:
    def __init__(self, path, text=None):
        self.path, self.crate, self.text = path, path.split("/")[0], text or (CRATES / path).read_text()
        self.definitions = {}
        uses = list(re.finditer(r"^use (\S+)\.\{([^}]*)\}$", self.text, re.M))
        self.imports = {name: m[1] for m in uses for name in m[2].split(", ")}
        self.modules = {name: module for module, name in re.findall(r"^use (\S+) as (\w+)$", self.text, re.M)}
        self.after_uses = uses[-1].end() if uses else 0

    def line(self, place):
        return self.text.count("\n", 0, place) + 1


DECLARED = re.compile(r"^(?:#\[[^\n]*\]\n)*pub (struct|enum) (\w+)(?: \{\n(.*?)^\}|\(([^\n]*)\);)", re.M | re.S)
NAMED = re.compile(r"^pub type (\w+) = ([^;\n]*; \d+\]);", re.M)


# the limits that arrays are declared by, as `Type::NAME`
def limits():
    found = {}
    for path in (p for crate in DEFINING for p in sorted((CRATES / crate / "src").glob("*.rt"))):
        for owner, block in re.findall(r"^impl (\w+) \{\n(.*?)^\}", path.read_text(), re.M | re.S):
            found.update({f"{owner}::{name}": number for name, number in re.findall(r"^    pub const (\w+): usize = (\d+);", block, re.M)})
    return found


USES = re.compile(r"^use (\w+)::(?:(\w+)|\{([^}]*)\});", re.M)


# what a crate's code declares, with no code: its uses of types, its structs and enums and its names for arrays, with each limit as its number
def declarations(crate):
    known = limits()
    code = re.sub(r"; (\w+::\w+)\]", lambda m: f"; {known.get(m[1], m[1])}]", (CRATES / crate / "src" / "lib.rt").read_text())
    types = [m.group() for m in sorted([*DECLARED.finditer(code), *NAMED.finditer(code)], key=lambda m: m.start())]
    used = [(m[1], name) for m in USES.finditer(code) if m[1] in DEFINING for name in re.findall(r"\w+", m[2] or m[3]) if name[0].isupper()]
    return "\n".join([f"use {other}::{name};" for other, name in used] + types) + "\n"


# All definitions. Structs, plain records and enums go by `crate.Name`: `fields` has each field's type as antt sees it, `widths` those
# of a long struct as the code declares them, `variants` the types that each variant carries, `arrays` the type that is named.
class Specs:
    def __init__(self):
        self.files, self.fields, self.widths, self.variants, self.arrays = {}, {}, {}, dict(LIBRARY_VARIANTS), {}
        for crate in DEFINING:
            self.read_types(crate, declarations(crate))
            named = re.findall(r"^pub mod (\w+)$", (CRATES / crate / "specs" / "Lib.antt").read_text(), re.M)
            for name in [name for name in named if name != IN_CONTRACTS]:
                file = File(f"{crate}/specs/{name}.antt")
                self.files[file.path] = file
                self.read_items(file, tokens_of(file.text), 0)

    def read_types(self, crate, text):
        names = {name: f"{other}.{name}" for other, name in re.findall(r"^use (\w+)::(\w+);", text, re.M)}
        names.update({m[2]: f"{crate}.{m[2]}" for m in DECLARED.finditer(text)})
        names.update({m[1]: f"{crate}.{m[1]}" for m in NAMED.finditer(text)})

        def seen(declared):
            array = re.fullmatch(r"\[(\w+); \d+\]", declared)
            number = re.fullmatch(r"u\d+|usize", declared)
            if array or number or declared == "bool":
                return f"List {seen(array[1])}" if array else "ℕ" if number else "Bool"
            return self.arrays.get(names[declared], names[declared])

        self.arrays.update({names[m[1]]: seen(m[2]) for m in NAMED.finditer(text)})
        for kind, name, block, tuple_ in (m.groups() for m in DECLARED.finditer(text)):
            body = re.sub(r"//[^\n]*", "", block or tuple_)
            if kind == "enum":
                carried = re.findall(r"(\w+)(?:\(([^)]*)\))?,", body)
                self.variants[names[name]] = {v: [seen(t) for t in types.split(", ") if t] for v, types in carried}
                continue
            listed = re.findall(r"pub (\w+): ([^,\n]+),", body) if block else enumerate(re.findall(r"pub (\w+)", body))
            listed = {str(f): t for f, t in listed}
            self.fields[names[name]] = {f: seen(t) for f, t in listed.items()}
            if len(listed) > LONG:
                self.widths[names[name]] = listed

    # the items of a file, each from a token in the margin up to the next
    def read_items(self, file, tokens, margin):
        starts = [k for k, t in enumerate(tokens) if t.column == margin and t.text not in (")", "}", "]")]
        for a, b in zip(starts, starts[1:] + [len(tokens)]):
            try:
                self.read_item(file, tokens[a:b], margin)
            except (Unreadable, ValueError, KeyError, IndexError) as e:
                raise Unreadable(f"{file.path}:{file.line(tokens[a].start)}: cannot be read: {e}")

    def read_item(self, file, item, margin):
        while item[0].text in ("abbrev", "unfoldable", "pub"):
            item = item[1:]
        words = words_of(item)
        if words[0] in ("use", "infixr", "infixl", "infix", "unfolding"):
            return
        if words[0] == "module":
            self.read_items(file, item[words.index("where") + 1 :], margin + 2)
        elif words[0] in ("record", "data"):
            where = words.index("where")
            rows = [k for k in range(where + 1, len(item)) if item[k].column == margin + 2]
            rows = [item[a:b] for a, b in zip(rows, rows[1:] + [len(item)])]
            made = file.definitions[words[1]] = Definition(file, words[1], words[0])
            made.mentions = words[2:where]
            (self.read_record if words[0] == "record" else self.read_data)(made, split(item[2:where], ":")[0], rows)
        elif len(split(item, "=")) > 1:
            left, right = split(item, "=", 1)
            file.definitions[words[0]].bodies.append((Reader(left, file.modules).whole(), Reader(right, file.modules).whole()))
        else:
            _, type_ = split(item, ":", 1)
            made = file.definitions[words[0]] = Definition(file, words[0], "function")
            made.type, made.mentions = self.signature(file, type_), words_of(type_)

    def read_data(self, made, parameters, rows):
        carried = self.variants[f"{made.file.crate}.{made.name}"] = {}
        for row in rows:
            names, type_ = split(row, ":")
            made.mentions += words_of(type_)
            carried.update({name: self.signature(made.file, type_)[:-1] for name in words_of(names)})

    def read_record(self, made, parameters, rows):
        for part in split(parameters, ")"):
            names, *type_ = split(part[1:], ":")
            made.parameters.update({name: [self.type_text(made.file, type_[0])] for name in words_of(names)})
        fields = [split(row[1:] if row[0].text == "pub" else row, ":") for row in rows]
        if made.parameters:
            made.bodies = [(Reader(name).whole(), Reader(type_, made.file.modules).whole()) for name, type_ in fields]
        else:
            made.mentions += [word for _, type_ in fields for word in words_of(type_)]
            self.fields[f"{made.file.crate}.{made.name}"] = {name[0].text: self.type_text(made.file, type_) for name, type_ in fields}

    def signature(self, file, tokens):
        types = []
        for part in split(tokens, "→"):
            if part[0].text == "(" and ":" in words_of(part):
                names, type_ = split(part[1:-1], ":")
                types += [self.type_text(file, type_)] * len(names)
            elif part[0].text != "{":
                types.append(self.type_text(file, part))
        return types

    def type_text(self, file, tokens):
        found = [(self.resolve(file, t.text), t.text) for t in tokens]
        return " ".join(f"{d.file.crate}.{d.name}" if isinstance(d, Definition) else d or word for d, word in found)

    # what a name stands for in a file: a Definition; the `crate.Name` of a struct or an enum; None for a name of the library
    def resolve(self, file, name):
        module = re.fullmatch(r"Rattle\.(\w+)\.specs\.(.+)", file.imports.get(name, ""))
        if name in file.definitions or not module or not (CRATES / module[1]).is_dir():
            return file.definitions.get(name)
        if module[2].startswith("declared."):
            return f"{module[1]}.{module[2].split('.')[1]}"
        return self.files[f"{module[1]}/specs/{module[2]}.antt"].definitions[name]

    # the structs that have a field, each with what makes two of its fields alike
    def owners(self, field):
        return {own: self.widths.get(own, fields) for own, fields in self.fields.items() if field in fields}

    # the definitions that a promise reaches, by the names that are mentioned
    def reached(self):
        found, waiting = set(), []
        for crate, names in ROOTS.items():
            of_crate = {name: d for f in self.files.values() if f.crate == crate for name, d in f.definitions.items()}
            waiting += [of_crate[name] for name in names.split()]
        while waiting:
            one = waiting.pop()
            if one not in found:
                found.add(one)
                names = one.mentions + [n for left, right in one.bodies for n in free_names(right, bound_names(left))]
                waiting += [d for d in (self.resolve(one.file, n) for n in names) if isinstance(d, Definition)]
        return found


def bound_names(pattern):
    return {pattern.text} if pattern.kind == "name" else {n for part in pattern.parts for n in bound_names(part)}


def free_names(node, bound):
    if node.kind == "name":
        return [] if node.text in bound else [node.text]
    names = ["if◌then◌else◌"] if node.kind == "if" else []
    for k, part in enumerate(node.parts):
        here = node.names if node.kind in ("let", "lambda") else bound_names(node.names[k - 1]) if node.kind == "elim" and k else []
        names += free_names(part, bound | set(here))
    return names
