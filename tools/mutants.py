#!/usr/bin/env -S python3 -B
# Measures how well the lists of cases pin the definitions: makes wrong definitions from specs/, one change each, tries each against
# the lists alone, with no code and no law beside them, and prints those that every list accepts. Each is computed here first; what this
# does not refuse, and tools/mutants.txt does not name as a change that makes nothing wrong, goes to the prover.
import argparse
import multiprocessing
import os
import queue
import re
import shutil
import signal
import subprocess
import sys
import tempfile
import threading
from pathlib import Path

from computing import Cases
from definitions import CRATES, DEFINING, IN_CONTRACTS, ROOT, Definition, Specs, Unreadable, declarations

EQUIVALENT = ROOT / "tools" / "mutants.txt"

# What a changed definition is tried against, by crate: the files of proofs/ that hold lists, and what these use. First the lists that refuse
# most and soonest; what they let through is tried against the others. The crate that is checked has nothing but lists.
LISTS_CRATE = "examples"
USED = {"roll": ["Examples"], "rules": ["Whole", "Stories"], "journal": ["Journals"], "listing": ["Texts"], "examples": ["Each", "Kiosk", "ExamplesHold"]}
FIRST = {"examples": ["Board", "Told", "ToldSo"]}
OTHERS = {"rules": ["After"], "again": ["Cases"], "listing": ["AsText"], "examples": ["MadeUpSo", "FieldsSeen"]}

# Names of the library that a change may bring into a file, with their module; and which arguments of its functions are a ℕ.
LIBRARY = dict.fromkeys(["ltb", "leb", "true", "false", "not", "◌&&◌", "◌||◌"], "Rattle.std.specs.Prelude")
NUMBERS_OF = {"get_or": [1], "set": [1, 2], "take": [0], "drop": [0], "replicate": [0]}

# The longest that a check may take, in seconds; and how many mutants of one file a worker takes at a time.
PATIENCE = 300
BATCH = 25


# ---- Definitions to mutants

class Mutant:
    def __init__(self, definition, kind, place, text, what):
        self.file, self.definition, self.kind, self.place, self.text, self.what = definition.file, definition, kind, place, text, what

    def key(self):
        return f"{self.file.path} {self.definition.name}: {self.what}"

    def __str__(self):
        return f"{self.file.path}:{self.file.line(self.place)} {self.definition.name}: {self.what}"


# the name after this one, round to the first; none where it is alone
def next_of(name, names):
    return [names[(names.index(name) + 1) % len(names)]] if name in names and len(names) > 1 else []


# Walks the right sides of one definition and makes its mutants. A scope has each bound name's type: a list, as of a Definition.
class Changes:
    def __init__(self, specs, definition):
        self.specs, self.definition, self.file = specs, definition, definition.file
        self.made, self.left, self.above = [], None, []
        self.carried = {"zero": [], "suc": ["ℕ"], "true": [], "false": [], "[]": []}
        for variants in specs.variants.values():
            self.carried.update(variants)

    def all(self):
        d = self.definition
        for left, right in d.bodies:
            scope = dict(d.parameters)
            for pattern, type_ in zip(left.parts[1:], d.type):
                self.bind(pattern, type_, scope)
            self.left = left
            self.walk(right, scope)
        if d.kind == "function":
            self.exchange_sides([left for left, _ in d.bodies], [right for _, right in d.bodies])
        return self.made

    def bind(self, pattern, type_, scope):
        if pattern.kind == "paren":
            self.bind(pattern.parts[0], type_, scope)
        elif pattern.kind == "name" and pattern.text not in self.carried:
            scope[pattern.text] = type_ and [type_]
        elif pattern.kind == "apply":
            name = pattern.parts[0].text
            option = re.match(r"Option (.*)", type_ or "") if name == "Some" else None
            carried = [option[1]] if option else self.specs.variants.get(type_, {}).get(name, self.carried[name])
            for part, of_part in zip(pattern.parts[1:], carried):
                self.bind(part, of_part, scope)
        elif pattern.kind == "chain":
            for part in pattern.parts[:-1]:
                self.bind(part, re.sub(r"^List (?:\( (.*) \)|(.*))$", r"\1\2", type_), scope)
            self.bind(pattern.parts[-1], type_, scope)

    # the type of what an expression gives, or None where more than a look is needed
    def type_of(self, parts, scope):
        head = parts[0]
        if head.kind in ("paren", "apply"):
            type_ = self.type_of(head.parts, scope)
        elif head.text in scope:
            type_ = scope[head.text]
        else:
            found = self.specs.resolve(self.file, head.text)
            type_ = found.type if isinstance(found, Definition) else None
        for part in parts[1:]:
            if type_ and part.kind == "field":
                field = self.specs.fields.get(type_[0], {}).get(part.text[1:])
                type_ = field and [field]
            else:
                type_ = type_ and type_[1:]
        return type_

    def source(self, node):
        return self.file.text[node.start : node.end]

    def shown(self, node):
        return " ".join(self.source(node).split())

    # a mutant: a span replaced, and the name that it brings into the file, with the module that has it
    def change(self, kind, start, end, new, what=None, name=None, module=None):
        text = self.file.text[:start] + new + self.file.text[end:]
        module, at = module or LIBRARY.get(name), self.file.after_uses
        if module and name not in self.file.imports:
            text = f"{text[:at]}\nuse {module}.{{{name}}}{text[at:]}"
        self.made.append(Mutant(self.definition, kind, start, text, what or self.told(start, end, new)))

    # a small change is told by the widest expression around it that is still short
    def told(self, start, end, new):
        a, b, label = start, end, ""
        for outer, node in zip([None] + self.above, self.above):
            if len(self.shown(node)) <= 60:
                a, b = node.start, node.end
                if outer and outer.kind == "record":
                    label = outer.names[outer.parts.index(node)] + " = "
                elif not outer and len(self.definition.bodies) > 1:
                    label = self.shown(self.left) + (" = " if self.definition.kind == "function" else " : ")
                break
        text = self.file.text
        old, now = " ".join(text[a:b].split()), " ".join((text[a:start] + new + text[end:b]).split())
        return f"`{label}{old}` to `{label}{now}`"

    def exchange(self, kind, a, b, what=None):
        self.change(kind, a.start, b.end, self.source(b) + self.file.text[a.end : b.start] + self.source(a), what)

    def exchange_sides(self, lefts, rights):
        for p, q, a, b in zip(lefts, lefts[1:], rights, rights[1:]):
            self.exchange("sides", a, b, f"exchange the right sides of `{self.shown(p)}` and `{self.shown(q)}`")

    def walk(self, node, scope):
        self.above.append(node)
        special = {"name": self.name, "number": self.number, "apply": self.apply, "chain": self.chain, "if": self.ladder, "record": self.record}
        if node.kind in special:
            special[node.kind](node, scope)
        for k, part in enumerate(node.parts):
            inner = dict(scope)
            if node.kind == "let" and k == 1:
                inner[node.names[0]] = self.type_of([node.parts[0]], scope) if node.parts[0].kind in ("name", "apply", "paren") else None
            elif node.kind == "lambda":
                inner.update(dict.fromkeys(node.names))
            elif node.kind == "elim" and k:
                self.bind(node.names[k - 1], None, inner)
            self.walk(part, inner)
        if node.kind == "elim":
            self.exchange_sides(node.names, node.parts[1:])
        self.above.pop()

    def number(self, node, scope):
        for value in (int(node.text) + 1, int(node.text) - 1):
            if value >= 0:
                self.change("number", node.start, node.end, str(value))

    def name(self, node, scope):
        if node.text in scope:
            return
        if node.text == "zero":
            self.change("number", node.start, node.end, "1")
        others = {"true": ["false"], "false": ["true"]}.get(node.text, [])
        owner = self.specs.resolve(self.file, node.text)
        for type_, variants in self.specs.variants.items():
            bare = [v for v, carried in variants.items() if not carried]
            if node.text in bare and owner in (None, type_):
                others = next_of(node.text, bare)
        for other in others:
            self.change("variant", node.start, node.end, other, name=other, module=self.file.imports.get(node.text))
        found = self.specs.resolve(self.file, node.text)
        if isinstance(found, Definition) and found.kind == "function":
            alike = []
            for other in found.file.definitions.values():
                if other is self.definition:
                    break  # what comes after cannot be named here
                if other.kind == "function" and other.type == found.type and other.name not in scope:
                    alike.append(other.name)
            for other in next_of(node.text, alike):
                self.change("name", node.start, node.end, other, name=other, module=self.file.imports.get(node.text))

    def apply(self, node, scope):
        head, parts = node.parts[0], node.parts[1:]
        if head.text in ("ltb", "leb") and len(parts) == 2:
            other = "leb" if head.text == "ltb" else "ltb"
            self.change("compare", head.start, head.end, other, name=other)
            self.exchange("compare", *parts)
        # to negate what a `not` is asked of is to drop the `not`
        elif head.text == "eqb" and not (len(self.above) > 2 and self.above[-3].is_call("not")):
            self.change("compare", node.start, node.end, f"not ({self.source(node)})", name="not")
        elif head.text in ("not", "suc", "pred"):
            self.change("compare" if head.text == "not" else "number", head.start, parts[0].start, "")
        type_ = self.type_of([head], scope) if head.kind == "name" else None
        numbers = [k for k, t in enumerate(type_[:-1]) if t == "ℕ"] if type_ else NUMBERS_OF.get(head.text, [])
        for k, part in enumerate(parts):
            if part.kind == "field":
                self.project(node.parts[: k + 1], part, scope)
                numbers = []
            elif k in numbers and part.text != "0":
                self.change("argument", part.start, part.end, "0")

    def project(self, before, part, scope):
        name, type_, owners = part.text[1:], self.type_of(before, scope), self.specs.owners(part.text[1:])
        if type_ and type_[0] in owners:
            owners = {type_[0]: owners[type_[0]]}
        others = [other for fields in owners.values() for other in next_of(name, [f for f in fields if fields[f] == fields[name]])]
        for other in dict.fromkeys(others):
            self.change("field", part.start, part.end, "." + other)

    def chain(self, node, scope):
        if node.text not in ("&&", "||"):
            return
        parts, other = node.parts, "||" if node.text == "&&" else "&&"
        for before, part, after in zip([None] + parts, parts, parts[1:] + [None]):
            start, end = (part.start, after.start) if after else (before.end, part.end)
            self.change("drop", start, end, "", f"drop `{self.shown(part)}`")
        joined = self.source(parts[0])
        for a, b in zip(parts, parts[1:]):
            joined += self.file.text[a.end : b.start].replace(node.text, other) + self.source(b)
        self.change("chain", node.start, node.end, joined, f"`{node.text}` to `{other}` after `{self.shown(parts[0])}`", f"◌{other}◌")

    def ladder(self, node, scope):
        test, yes, no = node.parts
        if no.kind == "if":
            test_2, yes_2, _ = no.parts
            pieces = [test, yes, test_2, yes_2]
            both = f"`{self.shown(test)}` and `{self.shown(test_2)}`"
            if self.exclude_each_other(test, test_2):  # then the order of the steps says nothing
                return self.exchange("ladder", yes, yes_2, f"exchange the answers to {both}")
            gaps = [self.file.text[a.end : b.start] for a, b in zip(pieces, pieces[1:])] + [""]
            new = "".join(self.source(piece) + gap for piece, gap in zip([test_2, yes_2, test, yes], gaps))
            self.change("ladder", test.start, yes_2.end, new, f"exchange the steps {both}")
        elif not (test.is_call("not") or test.is_call("eqb")):  # to negate these does the same
            self.exchange("ladder", yes, no, f"exchange the answers to `{self.shown(test)}`")

    def exclude_each_other(self, a, b):
        if not (a.is_call("eqb") and b.is_call("eqb")):
            return False
        (_, x, n), (_, y, m) = a.parts, b.parts
        n, m = self.numeral(n), self.numeral(m)
        return self.shown(x) == self.shown(y) and None not in (n, m) and n != m

    # the number that stands there as a numeral or by a name for one, as `vote_in Prevotes`; else None
    def numeral(self, node):
        if node.kind == "paren":
            return self.numeral(node.parts[0])
        if node.kind == "number":
            return int(node.text)
        name, *given = [part.text for part in node.parts or [node]]
        found = self.specs.resolve(self.file, name)
        for left, right in found.bodies if isinstance(found, Definition) and found.kind == "function" else ():
            if [part.text for part in left.parts[1:]] == given:
                return int(right.text) if right.kind == "number" else None

    def record(self, node, scope):
        for fields in self.specs.owners(node.names[0]).values():
            for type_ in dict.fromkeys(fields.values()) if set(fields) == set(node.names) else ():
                alike = [(n, v) for n, v in zip(node.names, node.parts) if fields[n] == type_]
                for (n, a), (m, b) in zip(alike, alike[1:]):
                    self.exchange("record", a, b, f"exchange the values of `{n}` and `{m}`")


# every mutant once, file by file; like changes of one definition are numbered
def all_mutants(specs, reached):
    mutants = []
    for file in specs.files.values():
        texts, told = {file.text}, {}
        for definition in [d for d in file.definitions.values() if d in reached]:
            for m in sorted(Changes(specs, definition).all(), key=lambda m: m.place):
                if m.text not in texts:
                    texts.add(m.text)
                    nth = told[m.key()] = told.get(m.key(), 0) + 1
                    m.what += f" #{nth}" if nth > 1 else ""
                    mutants.append(m)
    return mutants


# ---- Trying a mutant

REFUSED, SURVIVING, ILL_TYPED, NO_VERDICT = "refused", "surviving", "ill-typed", "no verdict"


# A folder with the definitions, the types that they are about, and some lists: no code, and no proof but what the lists need.
class Scratch:
    def __init__(self, folder, lists):
        self.crates, self.kept = folder / "crates", folder / "kept"
        for crate in [*DEFINING, LISTS_CRATE]:
            here, there = CRATES / crate, self.crates / crate
            shutil.copytree(here / "specs", there / "specs", ignore=shutil.ignore_patterns(IN_CONTRACTS, f"{IN_CONTRACTS}.antt"))
            named = there / "specs" / "Lib.antt"
            named.write_text(named.read_text().replace(f"pub mod {IN_CONTRACTS}\n", ""))
            (there / "src").mkdir()
            (there / "src" / "lib.rt").write_text(declarations(crate))
            proofs = USED.get(crate, []) + lists.get(crate, [])
            if proofs:
                (there / "proofs").mkdir()
                (there / "proofs" / "Lib.antt").write_text("".join(f"pub mod {name}\n" for name in proofs))
                for name in proofs:
                    shutil.copy(here / "proofs" / f"{name}.antt", there / "proofs")
        self.command = self.words()

    def words(self):
        rt = shutil.which("rt")
        if not rt:
            raise SystemExit("mutants: rt, the command of the Rattle kit, is not on the PATH")
        kit = Path(rt).resolve().parent.parent
        words = [kit / "bin" / "rattle", "check", "--crate-name", LISTS_CRATE, self.crates / LISTS_CRATE / "src" / "lib.rt"]
        for name in ("core", "std"):
            words += ["--extern", f"{name}={kit / 'rlibs' / f'{name}.rlib'}"]
        words += ["-L", f"dependency={kit / 'rlibs'}"]
        for line in (ROOT / "crates.txt").read_text().splitlines():
            name, _, used = line.partition("#")[0].partition(":")
            if name in DEFINING:
                used = ",".join(["core", "std", *[u for u in used.split() if u in DEFINING]])
                words += ["--lib", f"{name}:{used}={self.crates / name / 'src' / 'lib.rt'}"]
        words += ["--antt-project", kit / "rattle" / "logic" / "antt-project.json", "--logic-built", kit / "logic_built", "--incremental", self.kept]
        return [str(word) for word in words]

    # the verdict on what the folder holds now, and what the prover wrote. Only an error in a list, and none elsewhere, is a refusal
    def check(self):
        try:
            done = subprocess.run(self.command, stdout=subprocess.PIPE, stderr=subprocess.STDOUT, text=True, timeout=PATIENCE)
        except subprocess.TimeoutExpired:
            shutil.rmtree(self.kept, ignore_errors=True)
            return NO_VERDICT, f"no answer in {PATIENCE} s"
        last = (done.stdout.splitlines() or [""])[-1]
        places = re.findall(rf"^{re.escape(str(self.crates))}/(\w+)/(\w+)/.*?:\d+:\d+: error", done.stdout, re.M)
        if done.returncode == 0 and last.startswith("logic=proved"):
            return SURVIVING, done.stdout
        if done.returncode == 1 and last.startswith("logic=not-proved"):
            if any(crate in DEFINING and part == "specs" for crate, part in places):
                return ILL_TYPED, done.stdout
            if places and all(crate == LISTS_CRATE or part == "proofs" for crate, part in places):
                return REFUSED, done.stdout
        return NO_VERDICT, f"status {done.returncode}, {last}"

    def check_unchanged(self):
        verdict, output = self.check()
        if verdict != SURVIVING:
            raise SystemExit(f"{output}\nmutants: the lists do not hold of the definitions as they are, so none is tried")

    def attempt(self, mutant):
        place = self.crates / mutant.file.path
        place.write_text(mutant.text)
        try:
            return self.check()
        finally:
            place.write_text(mutant.file.text)


# once: a second signal must not stop the folder from being removed
def interrupt(*_):
    for ending in (signal.SIGINT, signal.SIGTERM):
        signal.signal(ending, signal.SIG_IGN)
    raise KeyboardInterrupt


class Trial:
    def __init__(self, mutants, reasons):
        self.mutants, self.reasons, self.verdicts = mutants, reasons, {}
        self.lock, self.failure, self.batches = threading.Lock(), None, queue.Queue()
        for path in dict.fromkeys(m.file.path for m in mutants):
            of_file = [m for m in mutants if m.file.path == path]
            for k in range(0, len(of_file), BATCH):
                self.batches.put(of_file[k : k + BATCH])

    def run(self, jobs):
        for ending in (signal.SIGINT, signal.SIGTERM):
            signal.signal(ending, interrupt)
        with tempfile.TemporaryDirectory(prefix="mutants-") as folder:
            workers = [threading.Thread(target=self.work, args=(Path(folder) / str(k),)) for k in range(min(jobs, self.batches.qsize()))]
            for worker in workers:
                worker.start()
            try:
                for worker in workers:
                    worker.join()
            except KeyboardInterrupt:
                self.failure = SystemExit("mutants: interrupted")
                for worker in workers:
                    worker.join()
        if self.failure:
            raise self.failure

    def work(self, folder):
        try:
            tries = [Scratch(folder / "first", FIRST), Scratch(folder / "others", OTHERS)]
            for scratch in tries:
                scratch.check_unchanged()
            while True:
                for mutant in self.batches.get_nowait():
                    if self.failure:
                        return
                    self.note(mutant, *self.attempt(mutant, tries))
        except queue.Empty:
            pass
        except BaseException as e:
            self.failure = self.failure or e

    def attempt(self, mutant, tries):
        for scratch in tries:
            verdict, output = scratch.attempt(mutant)
            if verdict != SURVIVING:
                break
        return verdict, output

    def note(self, mutant, verdict, output):
        with self.lock:
            self.verdicts[mutant] = verdict
            if verdict == SURVIVING and mutant.key() not in self.reasons:
                print(mutant, flush=True)
            elif verdict == NO_VERDICT:
                print(f"{mutant}: no verdict, {output}", flush=True)
            if len(self.verdicts) % BATCH == 0 or len(self.verdicts) == len(self.mutants):
                print(f"{len(self.verdicts):,} of {len(self.mutants):,} tried", file=sys.stderr, flush=True)


# ---- Computing mutants before they are proved

def set_up():
    global cases
    cases = Cases()


def is_refused(mutant):
    return cases.refuse(mutant.file.path, mutant.definition.name, mutant.text)


# those that computing refuses
def computed(mutants, jobs):
    set_up()
    if not cases.hold():
        raise SystemExit("mutants: the lists do not hold of the definitions as they are computed here")
    refused = {}
    with multiprocessing.get_context("fork").Pool(jobs) as pool:
        for k, (m, so) in enumerate(zip(mutants, pool.imap(is_refused, mutants, chunksize=BATCH)), 1):
            if so:
                refused[m] = REFUSED
            if k % 100 == 0:
                print(f"{k:,} of {len(mutants):,} computed", file=sys.stderr, flush=True)
    return refused


# ---- The command

# the entries of tools/mutants.txt: the key of a mutant, and indented below it why nothing is wrong with it
def read_reasons():
    reasons, key = {}, None
    for line in EQUIVALENT.read_text().splitlines():
        if line.startswith((" ", "\t")) and key:
            reasons[key] += line.strip()
        elif line.strip() and not line.startswith("#"):
            key = line.strip()
            reasons[key] = ""
    for key in [key for key, reason in reasons.items() if not reason]:
        raise SystemExit(f"mutants: {EQUIVALENT.name} gives no reason for {key}")
    return reasons


def main():
    cores = len(os.sched_getaffinity(0))
    parser = argparse.ArgumentParser(description="Tries wrong definitions against the lists of cases, and prints those that no list refuses.")
    parser.add_argument("--jobs", type=int, default=cores, metavar="N", help=f"checks at a time (here {cores} by default, one to a core)")
    parser.add_argument("--prover", action="store_true", help="try every one by the prover: slow")
    parser.add_argument("--list", action="store_true", help="print the mutants and try none")
    parser.add_argument("names", nargs="*", metavar="NAME", help="only of this file (rules/specs/Rules.antt) or definition (applies_28)")
    asked = parser.parse_args()

    specs = Specs()
    reached = specs.reached()
    mutants = all_mutants(specs, reached)
    for name in asked.names:
        if not any(name in (m.file.path, m.definition.name) for m in mutants):
            raise SystemExit(f"mutants: `{name}` is neither a file nor a definition of which there is a mutant")
    chosen = [m for m in mutants if not asked.names or {m.file.path, m.definition.name} & set(asked.names)]
    definitions = [d for file in specs.files.values() for d in file.definitions.values() if not d.name.startswith("the_")]
    print(f"a promise reaches {len(reached)} definitions; {len(definitions) - len(reached)} others are not changed", file=sys.stderr)
    if asked.list:
        print(*chosen, f"{len(chosen):,} made", sep="\n")
        return 0

    reasons = read_reasons()
    jobs = max(1, asked.jobs)
    verdicts = {} if asked.prover else computed(chosen, jobs)
    print(f"{len(verdicts):,} of {len(chosen):,} refused by computing", file=sys.stderr, flush=True)
    if not asked.prover:  # the reason stands for the prover
        verdicts.update({m: SURVIVING for m in chosen if m not in verdicts and m.key() in reasons})
    trial = Trial([m for m in chosen if m not in verdicts], reasons)
    trial.run(jobs)
    verdicts.update(trial.verdicts)
    verdict_of = {m.key(): verdict for m, verdict in verdicts.items()}
    stale = {key: "no such mutant" for key in set(reasons) - {m.key() for m in mutants}}
    stale.update({key: verdict_of[key] for key in reasons if verdict_of.get(key) in (REFUSED, ILL_TYPED)})
    for key in sorted(stale):
        print(f"stale in {EQUIVALENT.name}: {key}: {stale[key]}")
    refused, survived, ill_typed, open_ = (list(verdict_of.values()).count(v) for v in (REFUSED, SURVIVING, ILL_TYPED, NO_VERDICT))
    equivalent = sum(1 for key in reasons if verdict_of.get(key) == SURVIVING)
    print(
        f"{refused + survived:,} made, {refused:,} refused, {equivalent:,} equivalent, {survived - equivalent:,} surviving; "
        f"{ill_typed:,} ill-typed and {open_:,} without a verdict are not counted"
    )
    return 1 if survived > equivalent or stale or open_ else 0


if __name__ == "__main__":
    try:
        sys.exit(main())
    except Unreadable as e:
        sys.exit(f"mutants: {e}")
