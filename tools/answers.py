#!/usr/bin/env python3
"""Turns a function's Proof.antt, which names the steps of the older Rattle, into Invariants.antt and Answers.antt.

usage: tools/answers.py NAMES CRATE [FUNCTION..]

NAMES is the names.json of `rt check --generated DIR --old-names` in the crate, CRATE the crate's folder, FUNCTION a folder below its proofs/.
A step of the code that was c.before.before.STEP is now a field of c. What it can't turn it says; such a file stays as it is.
"""
import json
import os
import re
import sys

W = r"[^\s(){}.;,@\"«»\[\]\\]+"
FIELD = r"(?:\.(?:[A-Za-z0-9_+'′₀₁₂-]+))"
CHAIN = re.compile(r"(?<![\w.'′)-])(" + W + r")(" + FIELD + r"+)")
START = {"args", "ranges", "requires", "well_formed", "lifetimes", "type_inv", "utf8", "captures"}
plain = lambda it: re.sub(r"_lem$", "", it).replace("-", "").replace("_", "").lower()


class Left(Exception):
    pass


def declarations(text):
    """The head (comments and use lines) and the declarations, each with the comment above it."""
    lines = text.split("\n")
    head, i = [], 0
    while i < len(lines) and (lines[i].startswith(("--", "use ")) or not lines[i].strip()):
        head.append(lines[i])
        i += 1
    # comment lines right above the first declaration belong to it
    comment = []
    while head and head[-1].startswith("--") and any(h.startswith("use ") for h in head):
        comment.insert(0, head.pop())
    out, block = [], list(comment)
    names = []
    while i < len(lines):
        line = lines[i]
        m = re.match(r"(?:(?:abbrev|unfoldable|pub)\s+)*(" + W + r")(?:\s|$)", line) if re.match(r"\S", line) and not line.startswith("--") else None
        if m and m.group(1) not in ("unfolding", "use", "infixl", "infixr", "module", "data", "record"):
            is_new = not (out and out[-1][0] == m.group(1))
            if is_new:
                pending = []
                if out:
                    body = out[-1][1]
                    while body and (not body[-1].strip() or body[-1].startswith("--")):
                        pending.insert(0, body.pop())
                else:
                    pending, block = block, []
                out.append([m.group(1), [p for p in pending if p.strip()] + [line]])
            else:
                out[-1][1].append(line)
        elif m:
            word = m.group(1)
            if word in ("module", "data", "record", "infixl", "infixr"):
                out.append(["#" + line, [line]])
            elif word == "unfolding":
                out[-1][1].append(line)
            else:
                raise Left("a line among the declarations: " + line)
        else:
            (out[-1][1] if out else block).append(line)
        i += 1
    for d in out:
        while d[1] and not d[1][-1].strip():
            d[1].pop()
    return head, [(n, "\n".join(ls)) for n, ls in out]


def cut(text, ends):
    """The pieces of a text between the characters that end one, but for those inside brackets."""
    out, depth, at = [], 0, ""
    for ch in text:
        if ch in "({[":
            depth += 1
        if ch in ")}]":
            depth -= 1
        if ends(ch) and not depth:
            out.append(at)
            at = ""
        else:
            at += ch
    return out + [at]


def atoms(text):
    """The arguments of an application: words and what stands in brackets."""
    return [piece for piece in cut(text, str.isspace) if piece]


def commas(text):
    """The parts of a tuple."""
    parts = [piece.strip() for piece in cut(text, ",".__eq__)]
    return parts if parts[-1] else parts[:-1]


def inner(text):
    text = text.strip()
    while text.startswith("(") and text.endswith(")") and closes(text) == len(text) - 1:
        text = text[1:-1].strip()
    return text


def closes(text, at=0):
    depth = 0
    for i in range(at, len(text)):
        if text[i] in "({[":
            depth += 1
        elif text[i] in ")}]":
            depth -= 1
            if not depth:
                return i
    return -1


class Function:
    def __init__(self, names, path, folder, crate):
        self.n, self.path, self.folder, self.crate = names, path, folder, crate
        self.places = names["places"]
        self.by_old = {}
        for i, p in enumerate(self.places):
            self.by_old.setdefault(plain(p[0]), i)
        self.parent = [self.index(p[1]) if p[1] is not None else None for p in self.places]
        new_names = names["places_by_name"]
        self.new_place = new_names
        self.asked = [(self.index(a[0]), a[1]) for a in names["asked_at"]]
        self.loops = names["loops"]
        self.helpers = {}
        self.wanted = []

    def index(self, old):
        for i, p in enumerate(self.places):
            if p[0] == old:
                return i
        i = self.by_old.get(plain(old))
        if i is None:
            raise Left("no place " + old)
        return i

    # -- chains

    def walk(self, place, fields):
        """Takes the steps .before at the front. Their number is of the older steps: it only tells how far at most."""
        fields = list(fields)
        while fields and fields[0] == "before":
            place = self.parent[place] if self.parent[place] is not None else place
            fields = fields[1:]
        return place, fields

    def behind(self, base, base_place, place):
        n, at = 0, base_place
        while at != place:
            at = self.parent[at]
            n += 1
            if at is None:
                raise Left("a place that is not behind")
        return base + ".before" * n

    def render(self, base, base_place, place, fields):
        if not fields:
            return self.behind(base, base_place, place)
        first = fields[0]
        if first == "pre":
            first = "requires"
        if plain(first) in {plain(w) for w in START}:
            return base + "." + ".".join([next(w for w in START if plain(w) == plain(first))] + fields[1:])
        at = base_place
        while at is not None:
            old, new = self.places[at][2]
            if old and plain(old) == plain(first):
                break
            at = self.parent[at]
        if at is None:
            if first == "auto":
                return base + "." + ".".join(fields)
            raise Left(f"no step {first} at {self.places[base_place][0]}")
        rest = fields[1:]
        arm = self.n["arms"][at]
        if arm:
            best = None
            for new_field, old_step, path in arm[2]:
                if plain(old_step) == plain(first) and rest[: len(path)] == path and (best is None or len(path) > len(best[1])):
                    best = (new_field, path)
            if best:
                return base + "." + ".".join([arm[0], best[0]] + rest[len(best[1]) :])
            return base + "." + ".".join([arm[0] if new.startswith("in-") else new] + rest)
        if rest and rest[0] == "given" and len(rest) == 1:
            typed = {b: a for a, b in self.n["typed"][base_place]} if base == "c" else {}
            for step, var in typed.items():
                if plain(step) == plain(first):
                    return base + ".type_inv." + var
        callee = self.places[at][3]
        params = self.n["params"].get(callee, []) if callee else []
        if rest and rest[0] in ("new", "auto") and len(rest) > 1:
            k = 0
            r = rest[1:]
            while r and r[0] == "1":
                k += 1
                r = r[1:]
            if r and r[0] == "0" and k < len(params):
                return base + "." + ".".join([new, rest[0], params[k]] + r[1:])
        if rest and rest[0] == "ensures":
            return self.ensures(base + "." + new + ".ensures", self.n["clauses"][at], rest[1:])
        if rest and rest[0] == "inv":
            rest = ["invariant"] + rest[1:]
        return base + "." + ".".join([new] + rest)

    def ensures(self, base, clauses, rest):
        if not clauses or not clauses.get("fields") or len(clauses["fields"]) < 2:
            return ".".join([base] + rest)
        labels = clauses["fields"]
        k = 0
        while k < len(labels) - 1 and rest and rest[0] == "1":
            k += 1
            rest = rest[1:]
        if k == len(labels) - 1:
            return ".".join([base, labels[k]] + rest)
        if rest and rest[0] == "0":
            return ".".join([base, labels[k]] + rest[1:])
        if rest and rest[0] in labels:
            return ".".join([base] + rest)
        out = f"{base}.{labels[-1]}"
        for label in reversed(labels[k:-1]):
            out = f"({base}.{label}, {out})"
        return ".".join([out] + rest)

    # -- terms

    def turn(self, text, scope):
        """The text with each chain from an alias rendered anew. scope: alias -> (base text, its place, place, fields)."""
        scope = dict(scope)
        pos, out = 0, ""
        let = re.compile(r"let (" + W + r") = (" + W + FIELD.replace("(?:", "(?:", 1) + r"*) in\s*")
        call = re.compile(r"let (" + W + r") = (" + W + r") ([^\n]*?) in\b")
        group = re.compile(r"\((" + W + r") ([^()]*)\)(" + FIELD + r"+)")
        let_group = re.compile(r"let (" + W + r") = \((" + W + r") ([^()]*)\)(" + FIELD + r"+) in\s*")
        token = re.compile(W + FIELD + r"*")
        while pos < len(text):
            m = let.match(text, pos)
            if m and (pos == 0 or not re.match(r"[\w.'-]", text[pos - 1])):
                head = m.group(2).split(".")
                if head[0] in scope:
                    base, bp, place, fields = scope[head[0]]
                    place, rest = self.walk(place, fields + head[1:]) if not fields else (place, fields + head[1:])
                    scope[m.group(1)] = (base, bp, place, rest)
                    pos = m.end()
                    continue
            m = let_group.match(text, pos)
            if m and self.helpers.get(m.group(2)) is not None and (pos == 0 or not re.match(r"[\w.'-]", text[pos - 1])):
                base, bp = self.base_of(m.group(3), scope)
                place, fields = self.walk(self.helpers[m.group(2)], m.group(4)[1:].split("."))
                scope[m.group(1)] = (base, bp, place, fields)
                pos = m.end()
                continue
            m = call.match(text, pos)
            if m and self.helpers.get(m.group(2)) is not None and (pos == 0 or not re.match(r"[\w.'-]", text[pos - 1])):
                base, bp = self.base_of(m.group(3), scope)
                scope[m.group(1)] = (base, bp, self.helpers[m.group(2)], [])
                pos = re.compile(r"\s*").match(text, m.end()).end()
                continue
            m = group.match(text, pos)
            if m and self.helpers.get(m.group(1)) is not None:
                base, bp = self.base_of(m.group(2), scope)
                place, fields = self.walk(self.helpers[m.group(1)], m.group(3)[1:].split("."))
                out += self.render(base, bp, place, fields)
                pos = m.end()
                continue
            m = token.match(text, pos)
            if m:
                parts = m.group(0).split(".")
                if parts[0] in self.inline and self.helpers.get(parts[0]) is None and len(parts) == 1:
                    rest = re.compile(r"\s+").match(text, m.end())
                    if not rest:
                        raise Left("a helper alone: " + parts[0])
                    at = rest.end()
                    end = closes(text, at) + 1 if text[at] == "(" else token.match(text, at).end()
                    base, bp = self.base_of(text[at:end], scope)
                    if base != "c":
                        raise Left("a helper of another place")
                    if parts[0] not in self.wanted:
                        self.wanted.append(parts[0])
                    out += parts[0]
                    pos = end
                    continue
                if parts[0] in scope:
                    base, bp, place, fields = scope[parts[0]]
                    fields = fields + parts[1:]
                    place, fields = self.walk(place, fields) if fields and fields[0] == "before" else (place, fields)
                    out += self.render(base, bp, place, fields)
                elif parts[0] == "tie" and len(parts) > 1:
                    new, drop = self.tie(parts[1])
                    out += new
                    pos = m.end()
                    if drop:
                        d = re.compile(r"(?:\s+(?:(?:invariant|decreases|Inv|μ)-" + W[:-1] + r"*))*")
                        pos = re.compile(r"(?:\s+(?:invariant|decreases|Inv|μ)-[^\s(){}.;,]+)*").match(text, pos).end()
                    continue
                else:
                    out += m.group(0)
                pos = m.end()
                continue
            out += text[pos]
            pos += 1
        return out

    def base_of(self, text, scope):
        """Of a term for a place: where its fields are looked up."""
        for word in re.findall(W + FIELD + "*", text):
            head = word.split(".")[0]
            if head in scope:
                return scope[head][0], scope[head][1]
        raise Left("not a place: " + text)

    def lets(self, place):
        """The helpers that an answer at a place cites, each bound before it is cited; and what they unfold."""
        text, unf, done = "", [], []
        bound = {}

        def bind(name):
            if name in bound:
                return
            bound[name] = None
            at, c, kind, args, body, u, comment = self.inline[name]
            outer, self.wanted = self.wanted, []
            scope = {args[0]: ("c", place, at, [])}
            kind = self.turn(kind, {c: ("c", place, at, [])} if c else {})
            body = self.turn(body, scope).strip()
            inside, self.wanted = self.wanted, outer
            for n in inside:
                bind(n)
            if len(args) > 1:
                body = "λ " + " ".join(args[1:]) + ". " + body
            body = "\n".join(l if not l.strip() else "    " + l.lstrip() if i else l for i, l in enumerate(body.split("\n")))
            kind = " ".join(kind.split())
            done.append(f"\n    let {name} : {kind} = {body} in")
            unf.extend(x for x in u if x not in unf)

        for n in list(self.wanted):
            bind(n)
        return "".join(done), unf

    def tie(self, name):
        if name.startswith("Need-"):
            for i, (old, new) in enumerate(self.n["needs"]):
                if plain(old) == plain(name[5:]):
                    return "goal." + new, True
            raise Left("no goal " + name)
        return "goal." + self.new_place[self.index(name)], True

    # -- the file

    def convert(self):
        text = open(os.path.join(self.folder, "Proof.antt"), encoding="utf-8").read()
        head, decls = declarations(text)
        main = [d for d in decls if re.search(r"^pub \S+ : (\{M : Type 1\} → )?statement", d[1], re.M)]
        if len(main) != 1:
            raise Left("no one statement")
        main = main[0]
        decls = [d for d in decls if d is not main]
        at = main[1].find("tie.spec")
        if at < 0:
            raise Left("no tie.spec")
        rest = main[1][at + 8 :]
        # up to the parenthesis that closes (tie.spec ..)
        depth, end = 0, len(rest)
        for i, ch in enumerate(rest):
            if ch in "({[":
                depth += 1
            elif ch in ")}]":
                depth -= 1
                if depth < 0:
                    end = i
                    break
        args = atoms(rest[:end])
        tables = dict(decls)
        loops = [a for a in args if re.match(r"(invariant|decreases|Inv|μ)-", a)]
        args = [a for a in args if a not in loops]
        needs = self.n["needs"]
        if len(args) != len(needs):
            args = self.by_name(args, tables, needs)
        if len(loops) != 2 * len(self.loops):
            raise Left("loops")
        # helper declarations that take or give a place
        self.inline = {}
        for name, body in decls:
            self.helpers[name] = None
            if name.startswith("#"):
                if "tie." in body:
                    raise Left("a section over a place")
                continue
            comment, sig, unf, clauses = self.parts(name, body)
            if not re.search(r"\btie\.(?!Need-|invariant|decreases)", sig):
                continue
            m = re.match(r"(?:(?:abbrev|unfoldable|pub)\s+)*\S+ : \((" + W + r") : tie\.(" + W + r")([^()]*)\)\s*(.*)$", sig, re.S)
            m = m or re.match(r"(?:(?:abbrev|unfoldable|pub)\s+)*\S+ : ()tie\.(" + W + r")((?:\s+(?:invariant|decreases)-\S+)*)\s*(→.*)$", sig, re.S)
            if not m or len(clauses) != 1:
                raise Left("a helper of another form: " + name)
            place = self.index(m.group(2))
            rest = m.group(4).strip()
            rest = rest[1:].strip() if rest.startswith("→") else rest
            given, term = self.clause(name, clauses[0])
            if not given:
                m2 = re.match(r"λ (" + W + r")\. ?(.*)$", inner(term), re.S)
                if not m2:
                    raise Left("a helper with no argument: " + name)
                given, term = [m2.group(1)], m2.group(2)
            result = re.match(r"tie\.(" + W + r")", rest)
            if result and len(given) == 1 and not result.group(1).startswith(("Need", "invariant")):
                self.helpers[name] = self.index(result.group(1))
            self.inline[name] = (place, m.group(1) or given[0], rest, given, term, unf, comment)
        used = set()
        answers = []
        for i, arg in enumerate(args):
            old, new = needs[i]
            place = self.asked[i][0]
            a = inner(arg)
            if a in tables:
                used.add(a)
                answers.append(self.answer(a, tables[a], new, place, old))
                continue
            m = re.match(r"λ c( κs)?\. ?(.*)$", a, re.S)
            if m:
                body = m.group(2).strip()
                if body in ("search rules", "search needs"):
                    continue
                answers.append(self.lambda_answer(body, new, place, old))
                continue
            m = re.match(r"λ (" + W + r")( " + W + r")*\. (.*)$", a, re.S)
            raise Left("an answer of another form: " + a)
        invariants = []
        needed = set()
        for k, ((old_loop, new_loop), live) in enumerate(self.loops):
            for kind, new_kind in (("invariant", "invariant-"), ("decreases", "decreases-")):
                name = loops[2 * k + (kind == "decreases")]
                if not re.match(("invariant|Inv" if kind == "invariant" else "decreases|μ"), name):
                    raise Left("order of loops")
                used.add(name)
                invariants.append((kind, self.invariant(name, tables[name], new_kind + new_loop, live, self.n["changed"][k])))
        others = [(n, b) for n, b in decls if n not in used and n not in self.inline]
        # what an invariant cites goes with it
        texts = "\n".join(t for _, t in invariants)
        low = []
        grown = True
        while grown:
            grown = False
            for n, b in others:
                if (n, b) not in low and re.search(r"(?<![\w.-])" + re.escape(n) + r"(?![\w-])", texts):
                    low.append((n, b))
                    texts += "\n" + b
                    grown = True
        low = [o for o in others if o in low]
        high = [o for o in others if o not in low]
        uses = [h for h in head if h.startswith("use ") and not re.search(r"\.(Statement|Tie)(\.|$| )", h)]
        comment = [h for h in head if h.startswith("--")]
        module = f"Rattle.{self.crate}.proofs." + self.path.replace("/", ".")
        if invariants:
            t = comment + uses + [f"use {module}.Given as goal", ""]
            for n, b in low:
                t += [self.helper(n, b, True), ""]
            for _, text in invariants:
                t += [text, ""]
            self.write("Invariants.antt", t)
        answer_text = [a for a in answers if a]
        if answer_text or high:
            t = (comment if not invariants else []) + uses + [f"use {module}.Goals as goal"]
            if low:
                t += [f"use {module}.Invariants.{{{', '.join(n for n, _ in low)}}}"]
            t += [""]
            # a helper stands before the answers that cite it, in its old order
            for n, b in high:
                t += [self.helper(n, b, False), ""]
            for a in answer_text:
                t += [a, ""]
            self.write("Answers.antt", t)
        os.remove(os.path.join(self.folder, "Proof.antt"))

    def by_name(self, args, tables, needs):
        """The answers by the goals that their signatures name, where an older check asked for more."""
        at = {}
        for a in args:
            if inner(a) in tables:
                m = re.search(r"tie\.Need-(" + W + r")", tables[inner(a)])
                if m:
                    at[plain(m.group(1))] = a
            elif not re.match(r"λ c( κs)?\. search (rules|needs)$", inner(a)):
                raise Left("an answer with no name: " + a)
        return [at.get(plain(old), "λ c. search rules") for old, new in needs]

    def write(self, name, lines):
        while lines and not lines[-1].strip():
            lines.pop()
        with open(os.path.join(self.folder, name), "w", encoding="utf-8") as it:
            it.write("\n".join(lines) + "\n")

    def parts(self, name, text):
        """Comment, signature, unfolding lines, clauses (each its arguments and its body)."""
        lines = text.split("\n")
        comment = []
        while lines and lines[0].startswith("--"):
            comment.append(lines.pop(0))
        sig, unf, clauses = [], [], []
        for line in lines:
            if re.match(r"(?:(?:abbrev|unfoldable|pub)\s+)*" + re.escape(name) + r"\s+:\s", line) or (not clauses and not unf and sig and not line.startswith((name + " ", "unfolding"))):
                sig.append(line)
            elif line.startswith("unfolding"):
                unf.append(line)
            elif re.match(re.escape(name) + r"(\s|$)", line):
                clauses.append([line])
            else:
                (clauses[-1] if clauses else sig).append(line)
        return comment, "\n".join(sig), unf, ["\n".join(c) for c in clauses]

    def clause(self, name, text):
        """The arguments and the body of a clause."""
        depth, i = 0, len(name)
        while i < len(text):
            if text[i] in "({[":
                depth += 1
            elif text[i] in ")}]":
                depth -= 1
            elif text[i] == "=" and not depth and text[i - 1].isspace() and (i + 1 == len(text) or text[i + 1].isspace()):
                break
            i += 1
        return atoms(text[len(name) : i]), text[i + 1 :]

    def answer(self, name, text, new, place, old):
        comment, sig, unf, clauses = self.parts(name, text)
        out = comment + [f"pub {new} : goal.{new}"] + [u for u in unf]
        if len(clauses) != 1:
            raise Left("several clauses of " + name)
        args, body = self.clause(name, clauses[0])
        if not args:
            body2 = inner(body)
            m = re.match(r"λ (c)( κs)?\. (.*)$", body2, re.S)
            if not m:
                raise Left("no c in " + name)
            args, body = [m.group(1)], m.group(3)
        args = [a for a in args if a != "κs"]
        c = args[0]
        scope = {c: ("c", place, place, [])}
        self.wanted = []
        body = self.split(self.turn(body, scope), old)
        lets, more = self.lets(place)
        out += [u for u in more if u not in out]
        if lets and not body.startswith("\n"):
            body = "\n   " + body
        out.append(f"{new} c{''.join(' ' + a for a in args[1:])} ={lets}{body}")
        return "\n".join(out)

    def lambda_answer(self, body, new, place, old):
        self.wanted = []
        body = self.split(self.turn(" " + body, {"c": ("c", place, place, [])}), old)
        lets, more = self.lets(place)
        if lets and not body.startswith("\n"):
            body = "\n   " + body
        return "\n".join([f"pub {new} : goal.{new}"] + more + [f"{new} c ={lets}{body}"])

    def split(self, body, old):
        """An answer of several clauses is a record of them."""
        labels = self.n["asked"].get(old)
        if not labels or len(labels) < 2:
            return body
        # the last tuple of the body, behind its lets
        lets, rest = "", body
        while True:
            m = re.match(r"\s*let ", rest)
            if not m:
                break
            depth, i = 0, m.end()
            while i < len(rest):
                if rest[i] in "({[":
                    depth += 1
                elif rest[i] in ")}]":
                    depth -= 1
                elif not depth and re.match(r"\slet\s", rest[i:]):
                    # a let inside this one: its own 'in' comes first
                    depth2 = 0
                elif not depth and re.match(r"\sin\s", rest[i:]):
                    break
                i += 1
            if i >= len(rest):
                break
            lets += rest[: i + 3]
            rest = rest[i + 3 :]
        fields = []
        term = inner(rest)
        lead = rest[: len(rest) - len(rest.lstrip())]
        rest_labels = list(labels)
        pieces = commas(term) if rest.strip().startswith("(") and closes(rest.strip()) == len(rest.strip()) - 1 else [term]
        while len(rest_labels) > 1:
            if len(pieces) >= 2:
                fields.append(pieces[0])
                rest_labels = rest_labels[1:]
                if len(rest_labels) == 1:
                    fields.append(pieces[1] if len(pieces) == 2 else "(" + ", ".join(pieces[1:]) + ")")
                    rest_labels = []
                    break
                if len(pieces) == 2:
                    t = pieces[1].strip()
                    if t.startswith("(") and closes(t) == len(t) - 1:
                        pieces = commas(inner(t))
                    else:
                        pieces = [t]
                else:
                    pieces = pieces[1:]
            else:
                name = "told"
                chain = name
                lets += f"{lead or ' '}let {name} = {pieces[0].strip()} in"
                for label in rest_labels[:-1]:
                    fields.append(chain + ".0")
                    chain += ".1"
                fields.append(chain)
                rest_labels = []
                break
        out = "record { " + "; ".join(f"{l} = {f.strip()}" for l, f in zip(labels, fields)) + " }"
        return lets + (lead or " ") + out

    def helper(self, name, text, public):
        comment, sig, unf, clauses = self.parts(name, text)
        if name.startswith("#"):
            return self.turn(text, {})
        scope0 = {}
        names = []
        # binders of the signature, in order
        body_sig = sig.split(" : ", 1)[1] if " : " in sig else ""
        pos = 0
        while pos < len(body_sig):
            ch = body_sig[pos]
            if ch == "(":
                end = closes(body_sig, pos)
                grp = body_sig[pos + 1 : end]
                m = re.match(r"\s*((?:" + W + r"\s+)+):\s*(.*)$", grp, re.S)
                if m:
                    for v in m.group(1).split():
                        p = re.match(r"tie\.(" + W + r")", m.group(2))
                        names.append((v, self.index(p.group(1)) if p and not p.group(1).startswith("Need") else None))
                        if names[-1][1] is not None:
                            scope0[v] = (v, names[-1][1], names[-1][1], [])
                else:
                    names.append((None, None))
                pos = end + 1
            elif ch == "{":
                pos = closes(body_sig, pos) + 1
            else:
                pos += 1
        out = list(comment)
        sig = self.turn(sig, scope0)
        if public and not re.match(r"(abbrev |unfoldable )?pub ", sig):
            sig = re.sub(r"^(abbrev |unfoldable )?", lambda m: (m.group(1) or "") + "pub ", sig)
        out.append(sig)
        out += unf
        for c in clauses:
            args, body = self.clause(name, c)
            scope = dict()
            for (v, p), a in zip(names, [x for x in args if not x.startswith("{")]):
                if p is not None:
                    scope[a] = (a, p, p, [])
            if not args and scope0:
                scope = scope0
            out.append(f"{name}{''.join(' ' + a for a in args)} ={self.turn(body, scope)}")
        return "\n".join(out)

    def invariant(self, name, text, new, live, changed):
        comment, sig, unf, clauses = self.parts(name, text)
        args, body = self.clause(name, clauses[0])
        names = {}
        first = args[: len(live)]
        for a, v, ch in zip(first, live, changed):
            names[a] = f"l.initial.{v}" if ch else f"l.{v}"
        for a, v in zip(args[len(live) :], [v for v, ch in zip(live, changed) if ch]):
            names[a] = f"l.{v}"
        if len(args) != len(live) + sum(changed):
            raise Left(f"{name} has {len(args)} values for {live}")
        names.pop("_", None)

        def one(m):
            return names.get(m.group(1), m.group(1)) + (m.group(2) or "")

        body = re.sub(r"(?<![\w.'′)-])(" + W + r")(" + FIELD + r"*)", one, body)
        return "\n".join(comment + [f"abbrev pub {new} : goal.{new}"] + unf + [f"{new} l ={body}"])


def main():
    names = json.load(open(sys.argv[1], encoding="utf-8"))
    crate_folder = sys.argv[2].rstrip("/")
    crate = os.path.basename(crate_folder)
    only = sys.argv[3:]
    proofs = os.path.join(crate_folder, "proofs")
    done = left = 0
    for folder, _, files in sorted(os.walk(proofs)):
        if "Proof.antt" not in files:
            continue
        path = os.path.relpath(folder, proofs)
        if only and path not in only:
            continue
        key = f"Rattle-{crate}-proofs." + path.replace("/", ".") + ".Lts"
        if key not in names:
            print(f"left: {path}: no names")
            left += 1
            continue
        try:
            Function(names[key], path, folder, crate).convert()
            done += 1
        except Left as why:
            print(f"left: {path}: {why}")
            left += 1
        except (IndexError, KeyError, ValueError) as why:
            print(f"left: {path}: {type(why).__name__} {why}")
            left += 1
    print(f"{crate}: {done} turned, {left} left")


if __name__ == "__main__":
    main()
