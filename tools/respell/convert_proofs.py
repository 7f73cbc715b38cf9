#!/usr/bin/env python3
"""Turns each Proof.antt of a crate, the walk of the older kit, into Invariants.antt and Answers.antt.

usage: convert_proofs.py TOP CRATE NAMES.json

NAMES.json is what `rt check --generated .. --old-names` writes. It removes each Proof.antt that it turns, and prints what it
leaves to be done by hand.
"""
import json
import os
import re
import shutil
import sys

HERE = os.path.dirname(os.path.realpath(__file__))
SELF = r"[^\s(){};,.\"«»\[\]|·`]+"


def words():
    with open(os.path.join(HERE, "words.tsv"), encoding="utf-8") as f:
        return dict(line.rstrip("\n").split("\t") for line in f)


WORDS = words()
said = []


def norm(name):
    return name.replace("-", "_")


class Lts:
    """What the prover calls the goals and steps of one function, by their older names."""

    def __init__(self, d):
        self.stem = d["stem"]
        self.needs = {norm(a): b for a, b in d["needs"]}
        self.asked_at = {norm(a): place[0] for (a, _), place in zip(d["needs"], d["asked_at"])}
        self.settled = {norm(x) for x in d["settled"]}
        self.loops = {norm(a): (b, vs, ch) for ([a, b], vs), ch in zip(d["loops"], d["changed"])}
        self.places, self.fields = {}, {}
        self.steps = {}
        for place, arms in zip(d["places"], d["arms"]):
            name, parent, (old, new), callee, renames = place
            self.places[name] = (parent, norm(old), new, dict(renames))
            if arms:
                for n, o, path in arms[2]:
                    self.fields.setdefault(name, []).append((norm(o), path, arms[0], n))

    def step(self, place, old, rest, where):
        """The path to the step that had the name `old` before the place, and what is left of `rest`."""
        if old in ("requires", "args", "ranges", "well_formed", "lifetimes", "utf8"):
            return "c." + old, rest
        known = {o for _, o, _, _ in self.places.values()} | {f[0] for fs in self.fields.values() for f in fs}
        if old not in known:
            # an older script took the step for a name of the library
            for other in (re.sub("_lem$", "", old), old.lower(), old[2:].lower() if old.startswith("Is") else old):
                if other in known:
                    old = other
                    break
        at = place
        while at is not None and at in self.places:
            parent, o, new, renames = self.places[at]
            best = None
            for fo, path, arm, n in self.fields.get(at, []):
                if fo == old and rest[: len(path)] == path and (best is None or len(path) > len(best[0])):
                    best = (path, arm, n)
            if best and (best[0] or o != old or best[2].startswith(("in_default", "if-"))):
                return f"c.{best[1]}.{best[2]}", rest[len(best[0]) :]
            if o == old:
                if rest and rest[0] in renames:
                    rest = [renames[rest[0]], *rest[1:]]
                return f"c.{new}", rest
            at = parent
        said.append(f"{where}: no step {old} ({'.'.join(rest)})")
        return f"c.{old}", rest


CHAIN = re.compile(r"(?<![\w'.-])c((?:\.before)*)((?:\.[^\s(){};,.\"\[\]|]+)+)")


def turn_words(text):
    return re.sub(SELF, lambda m: WORDS.get(m[0], m[0]), text)


def turn_answer(lts, need, text, where):
    place = lts.asked_at.get(need)
    out, at = [], 0
    for m in CHAIN.finditer(text):
        out.append(turn_words(text[at : m.start()]))
        parts = m[2].split(".")[1:]
        step, rest = lts.step(place, norm(parts[0]), parts[1:], where)
        out.append(step + "".join("." + WORDS.get(x, x) for x in rest))
        at = m.end()
    out.append(turn_words(text[at:]))
    return "".join(out)


def declarations(text):
    """The top-level declarations: name, head line(s), body text."""
    blocks = re.split(r"\n\s*\n", text)
    return blocks


def loop_of(lts, name):
    return lts.loops.get(norm(name))


def turn_loop(lts, kind, loop, args, body, where):
    new, vs, changed = loop_of(lts, loop)
    args = args.split()
    more = [v for v, c in zip(vs, changed) if c]
    if len(args) != len(vs) + len(more):
        said.append(f"{where}: the loop {loop} has {len(args)} names for {len(vs)} and {len(more)}")
    names = {}
    for a, v, c in zip(args, vs, changed):
        names[a] = f"l.initial.{v}" if c else f"l.{v}"
    for a, v in zip(args[len(vs) :], more):
        names[a] = f"l.{v}"
    names.pop("_", None)

    def sub(m):
        return names.get(m[0], WORDS.get(m[0], m[0]))

    body = re.sub(r"(?<![.\w'])" + SELF, sub, body)
    return new, body


def uses_in(text):
    lists = {}
    for m in re.finditer(r"(?m)^use (\S+?)\.\{([^}]*)\}$", text):
        names = lists.setdefault(m[1], [])
        names += [n for n in (turn_words(x.strip()) for x in m[2].split(",")) if n not in names]
    found = list(lists.items())
    aliases = [m[0] for m in re.finditer(r"(?m)^use \S+ as \S+$", text)]
    return found, aliases


def kept_uses(found, aliases, body):
    lines = []
    for module, names in found:
        if module.endswith((".Statement", ".Tie")) or module == "borrow.Author.Rules" and not re.search(r"\brules\b", body):
            continue
        keep = []
        for n in names:
            bare = n.split(" as ")[-1]
            parts = [p for p in bare.split("◌") if p]
            if all(re.search(r"(?<![\w'-])" + re.escape(p) + r"(?![\w'-])" if re.match(r"\w", p) else re.escape(p), body) for p in parts):
                keep.append(n)
        if keep:
            lines.append(f"use {module}.{{{', '.join(keep)}}}")
    for line in aliases:
        alias = line.split(" as ")[1]
        if alias in ("tie", "lts"):
            continue
        if re.search(r"(?<![\w'.-])" + re.escape(alias) + r"\.", body):
            lines.append(line)
    return lines


def split_proof(text):
    """The use lines' text and the declarations (head, unfolding, body) of a Proof.antt."""
    decls, rest = [], []
    lines = text.split("\n")
    i = 0
    while i < len(lines):
        line = lines[i]
        if re.match(r"(abbrev |pub |abbrev pub )?\S.* : ", line) and not line.startswith(("use ", "--", "mod ")):
            block = [line]
            i += 1
            while i < len(lines) and lines[i].strip():
                block.append(lines[i])
                i += 1
            decls.append(block)
        else:
            rest.append(line)
            i += 1
    return rest, decls


def turn_file(lts, text, where, member=None):
    """Returns (invariants, answers, others): lists of texts of declarations."""
    inv, ans, others = [], [], []
    rest, decls = split_proof(text)
    stem = lts.stem
    for block in decls:
        head = block[0]
        m = re.match(r"abbrev (?:pub )?(invariant|decreases|Inv|μ)-(\S+) : ", head)
        if m:
            loop, older = m[2], m[1]
            kind = {"Inv": "invariant", "μ": "decreases"}.get(m[1], m[1])
            if loop_of(lts, loop) is None:
                said.append(f"{where}: no loop {loop}")
                continue
            body = "\n".join(block[1:])
            m2 = re.match(re.escape(f"{older}-{loop}") + r"((?: [^\s=]+)*) =\s?(.*)", body, re.S)
            new, body = turn_loop(lts, kind, loop, m2[1], m2[2], where)
            name = f"{kind}-{stem}{new}"
            inv.append(f"abbrev pub {name} : goal.{name}\n{name} l = {body}\n")
            continue
        m = re.match(r"(\S+) : (?:\(t : ℕ\) → )?(?:tie|lts)\.Need-(\S+)", head)
        if m:
            need = m[1]
            key = norm(need)
            key2 = norm(m[2])
            if key not in lts.needs and key2 in lts.needs:
                key = key2
            if key not in lts.needs:
                alias = {"loop_holds": "loop_init", "loop_less": "loop_smaller", "loop_again": "loop_preserved"}
                base = re.sub(r"_\d+$", "", key)
                for a, b in alias.items():
                    key = key if key in lts.needs else key.replace(a, b)
                if key not in lts.needs and re.match(r"loop\d*_", key2):
                    key = key2
            if key not in lts.needs:
                body = "\n".join(block[1:])
                if not re.search(r"= (search rules|omega arith)$", body):
                    if key not in lts.settled and not key.startswith(("enum_known", "enum_told")):
                        said.append(f"{where}: no goal {need}: {body.strip()[:160]}")
                continue
            unfolding = [l for l in block[1:] if l.startswith("unfolding ")]
            body = "\n".join(l for l in block[1:] if not l.startswith("unfolding "))
            m2 = re.match(re.escape(need) + r"((?: [^\s=]+)*) =\s?(.*)", body, re.S)
            if not m2:
                said.append(f"{where}: {need} is not read")
                continue
            args, body = m2[1].split(), m2[2]
            if body.strip() == "search rules" and not unfolding:
                continue
            if "κs" in body:
                said.append(f"{where}: {need} names κs")
            args = [a for a in args if a != "κs"]
            name = f"{stem}{lts.needs[key]}"
            body = turn_answer(lts, key, body, f"{where}: {need}")
            unfold = turn_words("\n".join(unfolding)) + "\n" if unfolding else ""
            ans.append(f"pub {name} : goal.{name}\n{unfold}{name} {' '.join(args)} = {body}\n")
            continue
        if re.match(r"pub \S+[-_]spec : |pub done : |abbrev pub calls : ", head):
            continue
        others.append(turn_words("\n".join(block)) + "\n")
    return inv, ans, others


def write(path, title, uses, goal, body):
    os.makedirs(os.path.dirname(path), exist_ok=True)
    with open(path, "w", encoding="utf-8") as f:
        f.write("\n".join([title, *sorted(set(uses)), goal]) + "\n\n" + "\n".join(body))


def parameters(top, crate):
    """The parameters of each function of the crate, by its name."""
    found = {}
    for folder, _, files in os.walk(os.path.join(top, "crates", crate, "src")):
        for name in files:
            with open(os.path.join(folder, name), encoding="utf-8") as f:
                for m in re.finditer(r"(?s)\bfn (\w+)\((.*?)\)\s*(?:->|\n|\{|requires|ensures)", f.read()):
                    found[m[1]] = re.findall(r"(?:^|,)\s*(?:mut )?(\w+)\s*:", m[2])
    return found


def turn_measure(text, params):
    def sub(m):
        return "l." + params[m[1].count(".1")]

    return re.sub(r"(?<![\w'.-])a((?:\.1)*)\.0", sub, turn_words(text))


def main(top, crate, names):
    with open(names, encoding="utf-8") as f:
        names = json.load(f)
    # a module with the name of a crate was listed under another name
    names = {re.sub(r"\b(texts|rows|answer|scopes|merge)_m\b", r"\1", k): v for k, v in names.items()}
    params = parameters(top, crate)
    proofs = os.path.join(top, "crates", crate, "proofs")
    for key, d in names.items():
        m = re.match(r"Rattle-\w+-proofs\.(.*)\.Lts$", key)
        if not m:
            continue
        at = m[1]
        folder = os.path.join(proofs, *at.split("."))
        path = os.path.join(folder, "Proof.antt")
        if not os.path.exists(path):
            continue
        with open(path, encoding="utf-8") as f:
            text = f.read()
        before = len(said)
        inv, ans, others = turn_file(Lts(d), text, at)
        if any("is not read" in s for s in said[before:]):
            continue
        uses, aliases = uses_in(text)
        function = f"{crate}::{at.replace('.', '::')}"
        first = f"-- `{function}` meets its contract."
        goal = f"use Rattle.{crate}.proofs.{at}"
        os.remove(path)
        if inv:
            write(os.path.join(folder, "Invariants.antt"), f"-- The loops of `{function}`.", kept_uses(uses, aliases, "\n".join(inv)), goal + ".Given as goal", inv)
        if ans:
            body = others + ans
            write(os.path.join(folder, "Answers.antt"), first, kept_uses(uses, aliases, "\n".join(body)), goal + ".Goals as goal", body)
        if not os.listdir(folder):
            os.rmdir(folder)
    cycles = {}
    for key, d in names.items():
        m = re.match(r"Rattle-\w+-proofs\.(.*)\.Lts-(\S+)$", key)
        if m:
            cycles.setdefault(m[1], {})[m[2]] = d
    for at, members in cycles.items():
        parent = os.path.join(proofs, *at.split(".")[:-1])
        new = os.path.join(proofs, *at.split("."))
        old = [f for f in os.listdir(parent) if f.startswith("+") and os.path.isdir(os.path.join(parent, f, "Proof"))]
        if len(old) != 1:
            said.append(f"{at}: the folder of the cycle: {old}")
            continue
        old = os.path.join(parent, old[0])
        with open(os.path.join(old, "Proof", "Common.antt"), encoding="utf-8") as f:
            common = f.read()
        inv, ans, all_uses, all_aliases = [], [], *uses_in(common)
        for member, d in members.items():
            lts = Lts(d)
            m = re.search(rf"(?m)^μ-{member.replace('_', '-')} κs a = (.*)$", common)
            measure = m[1] if m else "?"
            inv.append(f"abbrev pub decreases-{member} : goal.decreases-{member}\ndecreases-{member} l = {turn_measure(measure, params[member])}\n")
        for member, d in members.items():
            camel = "".join(p.capitalize() for p in member.split("_"))
            path = os.path.join(old, "Proof", camel + ".antt")
            if not os.path.exists(path):
                said.append(f"{at}: no file for {member}")
                continue
            with open(path, encoding="utf-8") as f:
                text = f.read()
            i, a, o = turn_file(Lts(d), text, f"{at}.{member}")
            inv += i
            ans += [f"-- ---- {member}\n", *a] if a else []
            if o:
                said.append(f"{at}.{member}: other declarations: {[x.splitlines()[0] for x in o]}")
                ans += o
            u, al = uses_in(text)
            for module, names_ in u:
                for k, (mod, ns) in enumerate(all_uses):
                    if mod == module:
                        all_uses[k] = (mod, ns + [n for n in names_ if n not in ns])
                        break
                else:
                    all_uses.append((module, names_))
        shutil.rmtree(old)
        path = f"Rattle.{crate}.proofs.{at}"
        all_uses = [(m, n) for m, n in all_uses if ".Proof.Common" not in m]
        write(os.path.join(new, "Invariants.antt"), f"-- The measures of the cycle `{at.split('.')[-1]}`, and the loops in it.", kept_uses(all_uses, [], "\n".join(inv)), f"use {path}.Given as goal", inv)
        write(os.path.join(new, "Answers.antt"), f"-- The functions of the cycle `{at.split('.')[-1]}` meet their contracts.", kept_uses(all_uses, [], "\n".join(ans)), f"use {path}.Goals as goal", ans)
    for line in said:
        print(line)


main(*sys.argv[1:4])
