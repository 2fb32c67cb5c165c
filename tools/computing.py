# Computes the definitions outside the prover, in Python: fast enough to try thousands of wrong ones against the lists of cases. The prover
# is the judge: what is not refused here is tried there, and the lists must hold here as they do there before any is changed.
import functools
import re
import sys

from definitions import Definition, File, Specs, Unreadable, tokens_of

sys.setrecursionlimit(20000)


# ---- The library's functions, on tuples for lists, dicts for records and (name, ..) for variants

class Later:
    def __init__(self, work):
        self.work = work

    def __call__(self):
        if self.work:
            self.value, self.work = self.work(), None
        return self.value


def put_at(l, i, x):
    return l[:i] + (x,) + l[i + 1 :] if i < len(l) else l


LIBRARY = {
    "zero": 0,
    "true": True,
    "false": False,
    "[]": (),
    "suc": lambda n: n + 1,
    "pred": lambda n: max(n - 1, 0),
    "not": lambda b: not b,
    "ltb": lambda a, b: a < b,
    "leb": lambda a, b: a <= b,
    "eqb": lambda a, b: a == b,
    "length": len,
    "take": lambda n, l: l[:n],
    "drop": lambda n, l: l[n:],
    "get_or": lambda l, i, d: l[i] if i < len(l) else d,
    "set": put_at,
    "replicate": lambda n, x: (x,) * n,
    "map": lambda f, l: tuple(f(x) for x in l),
    "is_some": lambda o: o[0] == "Some",
    "tt": (),
}
OPERATORS = {
    "+": "({} + {})",
    "-": "max({} - {}, 0)",
    "*": "({} * {})",
    "/": "over({}, {})",
    "%": "rest({}, {})",
    "^": "({} ** {})",
    "&&": "({} and {})",
    "||": "({} or {})",
}
HELPERS = {
    "Later": Later,
    "partial": functools.partial,
    "over": lambda a, b: a // b if b else 0,
    "rest": lambda a, b: a % b if b else a,
}


# ---- Definitions to Python

# Each definition is a function of the name `d_N`; one without arguments, a function of none. `known` has the number of each.
class Computing:
    def __init__(self, specs):
        self.specs, self.known, self.space, self.fresh = specs, {}, dict(HELPERS), 0
        for k, (name, value) in enumerate(LIBRARY.items()):
            self.space[f"l_{k}"] = value
        self.library = {name: f"l_{k}" for k, name in enumerate(LIBRARY)}
        self.variants = {v: carried for variants in specs.variants.values() for v, carried in variants.items()}
        for file in specs.files.values():
            for d in file.definitions.values():
                if d.kind == "function" and d.bodies:
                    try:
                        self.space[self.symbol(d)] = self.function(d)
                    except (Unreadable, KeyError):
                        pass  # a type, a proof or a bundle of names: no list computes it

    def symbol(self, d):
        key = (d.file.path, d.name)
        return f"d_{self.known.setdefault(key, len(self.known))}"

    def arity(self, d):
        left = d.bodies[0][0]
        return len(left.parts) - 1 if left.kind == "apply" else 0

    def function(self, d):
        lines = [f"def made({', '.join(f'a{k}' for k in range(self.arity(d)))}):"]
        for left, right in d.bodies:
            tests, bound = [], {}
            for k, pattern in enumerate(left.parts[1:] if left.kind == "apply" else []):
                self.match(pattern, f"a{k}", tests, bound)
            value = self.code(right, d.file, {name: place for name, place in bound.items()})
            lines.append(f"    if {' and '.join(tests) or 'True'}: return {value}")
        exec("\n".join(lines), self.space, made := {})
        return made["made"]

    # tests that a value at a place is as the pattern says, and the places of the names that it binds
    def match(self, pattern, place, tests, bound):
        head = pattern.parts[0] if pattern.kind == "apply" else pattern
        if pattern.kind == "paren":
            self.match(pattern.parts[0], place, tests, bound)
        elif pattern.kind == "chain":
            tests.append(f"len({place}) > {len(pattern.parts) - 2}")
            for k, part in enumerate(pattern.parts[:-1]):
                self.match(part, f"{place}[{k}]", tests, bound)
            self.match(pattern.parts[-1], f"{place}[{len(pattern.parts) - 1}:]", tests, bound)
        elif head.text == "[]":
            tests.append(f"{place} == ()")
        elif head.text in ("zero", "true", "false"):
            tests.append(f"{place} == {LIBRARY[head.text]}")
        elif head.text == "suc":
            tests.append(f"{place} > 0")
            self.match(pattern.parts[1], f"({place} - 1)", tests, bound)
        elif head.text.split(".")[-1] in self.variants:
            tests.append(f"{place}[0] == {head.text!r}")
            for k, part in enumerate(pattern.parts[1:], 1):
                self.match(part, f"{place}[{k}]", tests, bound)
        else:
            bound[head.text] = place

    def code(self, node, file, scope):
        def inner(part):
            return self.code(part, file, scope)

        if node.kind == "paren":
            return inner(node.parts[0])
        if node.kind == "number":
            return node.text
        if node.kind == "name":
            return self.named(node, [], file, scope)
        if node.kind == "apply":
            return self.applied(node, file, scope)
        if node.kind == "chain":
            return self.chained([inner(part) for part in node.parts], node.names)
        if node.kind == "if":
            test, yes, no = map(inner, node.parts)
            return f"({yes} if {test} else {no})"
        if node.kind == "let":
            self.fresh += 1
            name = f"v{self.fresh}"
            body = self.code(node.parts[1], file, {**scope, node.names[0]: f"{name}()"})
            return f"(lambda {name}: {body})(Later(lambda: {inner(node.parts[0])}))"
        if node.kind == "lambda":
            self.fresh += 1
            names = [f"p{self.fresh}_{k}" for k in range(len(node.names))]
            return f"(lambda {', '.join(names)}: {self.code(node.parts[0], file, {**scope, **dict(zip(node.names, names))})})"
        if node.kind == "record":
            return "{" + ", ".join(f"{name!r}: {inner(part)}" for name, part in zip(node.names, node.parts)) + "}"
        if node.kind == "elim":
            return self.eliminated(node, file, scope)
        raise Unreadable(f"{node.kind} is not computed")

    # `∷` and `++` make one list; the others go to the left
    def chained(self, parts, words):
        if words[0] in ("∷", "++"):
            spread = [part if word == "∷" else f"*{part}" for part, word in zip(parts, words + ["++"])]
            return f"({', '.join(spread)},)"
        value = parts[0]
        for word, part in zip(words, parts[1:]):
            value = OPERATORS[word].format(value, part)
        return value

    def applied(self, node, file, scope):
        head, arguments, value = node.parts[0], [], None
        for part in node.parts[1:]:
            if part.kind == "field":
                if value is None:
                    value = self.named(head, arguments, file, scope) if head.kind == "name" else self.code(head, file, scope)
                value, arguments = f"{value}[{part.text[1:]!r}]", []
            else:
                arguments.append(self.code(part, file, scope))
        if value is None:
            return self.named(head, arguments, file, scope) if head.kind == "name" else f"{self.code(head, file, scope)}({', '.join(arguments)})"
        return f"{value}({', '.join(arguments)})" if arguments else value

    def named(self, node, arguments, file, scope):
        name = node.text
        if name in scope:
            return f"{scope[name]}({', '.join(arguments)})" if arguments else scope[name]
        found = self.specs.resolve(file, name)
        if isinstance(found, Definition) and found.kind == "function":
            symbol, wanted = self.symbol(found), self.arity(found)
            if len(arguments) >= wanted:
                call = f"{symbol}({', '.join(arguments[:wanted])})"
                return f"{call}({', '.join(arguments[wanted:])})" if arguments[wanted:] else call
            return f"partial({', '.join([symbol] + arguments)})" if arguments else symbol
        if name in self.variants:
            return f"({name!r}, {''.join(a + ', ' for a in arguments)})"
        if name in self.library:
            return f"{self.library[name]}({', '.join(arguments)})" if arguments else self.library[name]
        raise Unreadable(f"`{name}` is not computed")

    def eliminated(self, node, file, scope):
        self.fresh += 1
        place, choices = f"e{self.fresh}", []
        for pattern, part in zip(node.names, node.parts[1:]):
            tests, bound = [], {}
            self.match(pattern, place, tests, bound)
            choices.append((" and ".join(tests) or "True", self.code(part, file, {**scope, **bound})))
        value = "None"
        for test, part in reversed(choices):
            value = f"({part} if {test} else {value})"
        return f"(lambda {place}: {value})({self.code(node.parts[0], file, scope)})"


# ---- The lists

# The files of lists beside the definitions. What of them is not computed (statements) is passed over.
class Lists(Specs):
    FILES = [
        "roll/proofs/Examples", "rules/proofs/Whole", "rules/proofs/Stories", "journal/proofs/Journals", "again/proofs/Cases", "listing/proofs/Texts",
        "examples/specs/Cases", "examples/specs/Whole", "examples/specs/Examples", "examples/specs/MadeUp", "examples/specs/Flat",
        "examples/specs/Fields", "examples/proofs/Told",
    ]

    def __init__(self):
        super().__init__()
        for path in self.FILES:
            file = File(path + ".antt")
            self.files[file.path] = file
            self.read_items(file, tokens_of(file.text), 0)

    def read_item(self, file, item, margin):
        if "/specs/" in file.path and not file.path.startswith("examples/"):
            return super().read_item(file, item, margin)
        try:
            super().read_item(file, item, margin)
        except (Unreadable, ValueError, KeyError, IndexError):
            pass

    def path_of(self, module):
        found = re.fullmatch(r"Rattle\.(\w+)\.(specs|proofs)\.(\w+)", module)
        return found and f"{found[1]}/{found[2]}/{found[3]}.antt"

    def resolve(self, file, name):
        if "." in name:
            module, name = name.split(".")
            return self.files[self.path_of(file.modules[module])].definitions[name]
        path = self.path_of(file.imports.get(name, ""))
        if name not in file.definitions and path in self.files and name in self.files[path].definitions:
            return self.files[path].definitions[name]
        try:
            return super().resolve(file, name)
        except KeyError:
            return None


# A list's cases: what is given, and what is computed of it now.
class Cases:
    def __init__(self):
        self.lists = Lists()
        self.computing = Computing(self.lists)
        self.all = [*self.told(), *self.examples(), *self.made_up(), *self.stories(), *self.again(), *self.fields()]

    def of(self, path, name):
        d = self.lists.files[path + ".antt"].definitions[name]
        symbol, space = self.computing.symbol(d), self.computing.space
        return (lambda *arguments: space[symbol](*arguments)) if self.computing.arity(d) else space[symbol]()

    def told(self):
        put, opening, create, last = (self.of("board/specs/Board", name) for name in ("board_put", "board_open", "board_create", "last_part"))
        for c in self.of("examples/proofs/Told", "calls"):
            yield "told", lambda c=c: put(c["input"], c["kiosk"], c["table"], c["journal"]), {"reply": c["reply"], "table": c["table_after"], "journal": c["journal_after"]}
        for c in self.of("examples/proofs/Told", "openings"):
            yield "told", lambda c=c: opening(c["journal"], c["used"], c["table"]), {"reply": c["reply"], "table": c["table_after"]}
        for c in self.of("examples/proofs/Told", "creatings"):
            yield "told", lambda c=c: create(c["powers"], c["own"], c["height"], c["journal"]), {"made": c["made"], "journal": c["journal_after"]}
        for c in self.of("examples/proofs/Told", "showings"):
            yield "told", lambda c=c: last(c["kiosk"], c["journal"]), c["part"]

    # a reply as the promises say it of an answer, outputs and a state
    def replied(self, o, *lent):
        sent = self.of("rules/specs/Sent", "packed")(o.get("sent", ()))
        return ({"answer": o["answer"], "sent": sent, "kiosk": o["kiosk"]}, *(o[name] for name in lent))

    def opening(self, c):
        o = self.of("kiosk/specs/Opening", "open_journal")(c["journal"], c["used"], c["table"])
        return self.replied(o, "table")

    def telling(self, inputs):
        create, opening, put = self.of("kiosk/specs/Calls", "create"), self.of("kiosk/specs/Opening", "open_journal"), self.of("kiosk/specs/Calls", "put")
        made = create((1, 1, 1, 1), 0, 1, (255,) * 520)
        o = opening(made["journal"], made["used"], (0,) * 1040)
        o = {**o, "sent": (), "journal": made["journal"]}
        for i in inputs:
            o = put(i, o["kiosk"], o["table"], o["journal"])
        return (*self.replied(o, "table", "journal"), self.of("kiosk/specs/Calls", "last_group")(o["kiosk"], o["journal"]))

    def tellings(self, tellings):
        for t in tellings:
            yield "tellings", lambda t=t: self.telling(t["inputs"]), (t["reply"], t["table_after"], t["journal_after"], t["last"])

    def openings(self, openings):
        for c in openings:
            yield "openings", lambda c=c: self.opening(c), (c["reply"], c["table_after"])

    def examples(self):
        e = self.of("examples/specs/Examples", "examples")
        so, roomy, listing = self.of("roll/proofs/Examples", "weighs_so"), self.of("journal/specs/Layout", "roomy"), self.of("listing/specs/Listing", "listing")
        for w in e["weighed"]:
            yield "weighings", lambda w=w: so(w), True
        for r in e["rooms"]:
            yield "rooms", lambda r=r: roomy(r["kiosks"]), r["size"]
        yield from self.openings(e["openings"])
        yield from self.tellings(e["tellings"])
        for l in self.of("listing/proofs/Texts", "listings"):
            yield "listings", lambda l=l: listing(l["journal"]), l["text"]

    def made_up(self):
        m = self.of("examples/specs/MadeUp", "made_up")
        put, create, last = (self.of("kiosk/specs/Calls", name) for name in ("put", "create", "last_group"))
        for c in m["calls"]:
            yield "made-up", lambda c=c: self.replied(put(c["input"], c["kiosk"], c["table"], c["journal"]), "table", "journal"), (c["reply"], c["table_after"], c["journal_after"])
        yield from self.openings(m["openings"])
        for c in m["creatings"]:
            yield "made-up", lambda c=c: create(c["powers"], c["own"], c["height"], c["journal"]), {**c["made"], "journal": c["journal_after"]}
        for c in m["showings"]:
            yield "made-up", lambda c=c: last(c["kiosk"], c["journal"]), c["part"]
        yield from self.tellings([self.of("examples/specs/MadeUp", "whole_height")])

    def stories(self):
        desk, worked = self.of("rules/specs/Log", "desk"), self.of("rules/specs/Work", "worked")

        def leaves(s):
            d = {"state": s["before"], "table": s["table_before"]}
            for i in s["inputs"]:
                d = worked(i, desk(d["state"], d["table"]))
            return d["sent"], d["state"], d["table"]

        for s in self.of("rules/proofs/Stories", "stories"):
            yield "stories", lambda s=s: leaves(s), (s["sends"], s["after"], s["table_after"])

    def again(self):
        wake, say, packed = self.of("again/specs/Again", "wake"), self.of("again/specs/Again", "say_again"), self.of("rules/specs/Sent", "packed")

        def woken(w):
            return {"answer": w["answer"], "kiosk": w["kiosk"], "messages": packed(w["messages"]), "timers": packed(w["timers"])}, w["table"]

        for c in self.of("again/proofs/Cases", "cases"):
            yield "again", lambda c=c: woken(wake(c["journal"], c["used"], c["table"])), (c["woken"], c["table_after"])
            yield "again", lambda c=c: self.replied(say(c["journal"], c["used"], c["table"], c["area"]), "table", "area"), (c["reply"], c["table_after"], c["area_after"])

    def fields(self):
        kiosk_number, input_number, layout = (self.of("flat/specs/Fields", name) for name in ("kiosk_number", "input_number", "layout"))
        path = "examples/specs/Fields"
        kiosk, given = self.of(path, "numbered"), self.of(path, "numbered_input")
        for c in self.of(path, "numbers"):
            yield "fields", lambda c=c: kiosk_number(kiosk, c["field"], c["index"]), c["number"]
        for c in self.of(path, "input_numbers"):
            yield "fields", lambda c=c: input_number(given, c["field"]), c["number"]
        for c in self.of(path, "layouts"):
            yield "fields", lambda c=c: layout(kiosk, c["from"]), c["reply"]
        board_list, board_again = (self.of("board/specs/Board", name) for name in ("board_list", "board_again"))
        for c in self.of(path, "pages"):
            yield "fields", lambda c=c: board_list(c["journal"], c["text"]), {"page": c["page"], "text": c["text_after"]}
        for c in self.of(path, "sayings"):
            yield "fields", lambda c=c: board_again(c["journal"], c["used"], c["table"], c["area"]), {"reply": c["reply"], "table": c["table_after"], "said": c["area_after"]}

    # the lists hold of the definitions as they are
    def hold(self):
        return all(work() == given for _, work, given in self.all)

    # some case gives something else with this text of the file in place of its own; what cannot be computed is left to the prover
    def refuse(self, path, name, text):
        changed = File(path, text)
        try:
            self.lists.read_items(changed, tokens_of(text), 0)
            d = changed.definitions[name]
            if d.kind != "function":
                return False
            symbol, space = self.computing.symbol(d), self.computing.space
            kept, space[symbol] = space[symbol], self.computing.function(d)
        except (Unreadable, SyntaxError):
            return False
        try:
            for k, (_, work, given) in enumerate(self.all):
                if work() != given:
                    self.all.insert(0, self.all.pop(k))  # what refuses one change is likely to refuse the next
                    return True
            return False
        except (TypeError, KeyError, IndexError, RecursionError, OverflowError, MemoryError):
            return False
        finally:
            space[symbol] = kept
