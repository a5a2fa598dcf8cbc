#!/usr/bin/env python3
"""Turns old Proof.antt files, which walk the code by `tie.close`, into Invariants.antt and Answers.antt.

usage: tools/answers.py NAME ..        at the top of the repository, for crates whose lower crates are proved

Asks `rt check --generated F --old-names` how each goal and step of a function was called and is called. An answer goes over under the
goal's name of today, its steps by their names of today and without the way back to them; a loop's invariant and measure go into
Invariants.antt, with what they name. Answers that only say `search rules` are left out, since the check tries them. What it cannot
place it prints. A folder that has no Proof.antt is left alone.
"""
import json
import os
import re
import subprocess
import sys
import tempfile

OPS = {"overflow": ["add", "sub", "mul", "shl", "shr", "cast", "step"], "nonzero": ["div", "rem"]}
SWAP = {"bounds": "index", "offset-bounds": "offset", "slice-bounds": "part", "invariant-of": "ghost", "shape-of": "keeps"}
WORDS = dict(taken="true", left="false", inv="invariant", last="new", entry="initial", kept="auto", pre="requires")
FIRST = {"pre": "requires", "good": "well_formed", "well-formed": "well_formed", "fits": "ranges"}
NAME = r"[A-Za-z_][\w'₀₁₂₃₄₅₆₇₈₉\-]*"
DECL = re.compile(rf"^((?:abbrev |unfoldable |pub )*)({NAME})((?: \{{[^}}]*\}})*) : ?(.*)$")
TOKEN = re.compile(rf"{NAME}(?:\.[\w'₀\-]+)*")


LENT = {}


def lent(callee):
    """The names of the parameters that a function of the repository is lent by `&mut`, in order."""
    if not LENT:
        for folder, _, fs in os.walk("crates"):
            for f in fs:
                if f.endswith(".rt") and "/out/" not in folder:
                    crate = folder.split(os.sep)[1]
                    module = crate if f in ("lib.rt", "main.rt") else crate + "::" + f[:-3]
                    for m in re.finditer(r"fn (\w+)(?:<[^>]*>)?\(([^{]*?)\)(?: ->|\s)", open(os.path.join(folder, f), encoding="utf-8").read()):
                        LENT.setdefault(module + "::" + m[1], re.findall(r"(\w+): &(?:'\w+ )?mut ", m[2]))
    return LENT.get(callee, [])


def norm(w):
    return w.replace("_", "-")


def old_forms(w):
    """The names that a goal may have had, from what port.py made of it."""
    yield w
    for new, old in SWAP.items():
        if w.startswith(new + "-"):
            yield old + w[len(new):]
    for pre in OPS:
        if w.startswith(pre + "-"):
            yield w[len(pre) + 1:]


class Function:
    def __init__(self, names):
        self.needs = {}
        for o, n in names["needs"]:
            self.needs.setdefault(norm(o), n)
        self.new_needs = {norm(n): n for _, n in names["needs"]}
        self.asked_at = {n: at for (o, n), at in zip(names["needs"], names["asked_at"])}
        self.settled = {norm(s) for s in names["settled"]}
        self.places, self.parent, self.steps = {}, {}, {}
        for (o, parent, step, callee, _), new in zip(names["places"], names["places_by_name"]):
            self.places[norm(o)] = (o, new)
            self.parent[o] = parent
            if step[0]:
                self.steps.setdefault(norm(step[0]), step[1])
        self.arms = {}
        for arm in names["arms"]:
            for field, step, path in arm[2] if arm else []:
                if path:
                    self.arms[(norm(step), tuple(path))] = f"{arm[0]}.{field}"
        self.callee = {norm(p[2][0]): p[3] for p in names["places"] if p[3]}
        self.loops = {norm(a[0][0]): (a[0][1], a[1], c) for a, c in zip(names["loops"], names["changed"])}

    def need(self, w):
        for f in old_forms(norm(w)):
            if f in self.needs:
                return self.needs[f]
        return self.new_needs.get(norm(w))

    def is_settled(self, w):
        return norm(w) in self.settled or any(f in self.settled for f in old_forms(norm(w)))

    def back(self, a, b):
        """How many steps back from place a to place b, or None."""
        k = 0
        while a is not None and a != b:
            a, k = self.parent.get(a), k + 1
        return k if a == b else None


def items(text):
    out, cur, pend = [], None, []
    for line in text.split("\n"):
        top = line and not line[0].isspace()
        if top and line.startswith("--"):
            pend.append(line)
            continue
        if top and line.startswith("use "):
            out.append({"kind": "use", "lines": [line], "comment": pend})
            cur, pend = out[-1], []
            continue
        m = DECL.match(line) if top else None
        if m and not line.startswith("unfolding"):
            out.append({"kind": "decl", "mods": m[1], "name": m[2], "sig": [line], "body": [], "comment": pend})
            cur, pend = out[-1], []
            continue
        if top and re.match(r"(abbrev |pub )*(module|record|data|open)\b", line):
            out.append({"kind": "block", "lines": [line], "comment": pend, "name": ""})
            cur, pend = out[-1], []
            continue
        if cur is None:
            if line.strip():
                out.append({"kind": "block", "lines": [line], "comment": pend, "name": ""})
                cur, pend = out[-1], []
            continue
        if pend:  # a comment inside
            if cur["kind"] == "decl":
                cur["body"] += pend
            else:
                cur["lines"] += pend
            pend = []
        if cur["kind"] == "decl":
            if not cur["body"] and line and line[0].isspace() and not cur.get("clause"):
                cur["sig"].append(line)
            else:
                cur["clause"] = True
                cur["body"].append(line)
        else:
            cur["lines"].append(line)
    return out


def strip(lines):
    while lines and not lines[-1].strip():
        lines = lines[:-1]
    return lines


class Turn:
    def __init__(self, fn, path, said):
        self.fn, self.path, self.said = fn, path, said
        self.alias, self.helper, self.nots = {}, {}, False

    def say(self, what):
        self.said.append(f"{self.path}: {what}")

    def place(self, w):
        p = self.fn.places.get(norm(w))
        if not p:
            self.say(f"no place {w}")
        return p

    def fields_again(self, first, rest):
        return self.fields([first] + rest[1:])

    def fields(self, rest):
        fn = self.fn
        first = norm(rest[0])
        if first not in fn.steps and first[0].isupper():
            first = first[0].lower() + first[1:]
        if first not in fn.steps and first.endswith("-lem") and first[:-4] in fn.steps:
            first = first[:-4]
        if first not in fn.steps and re.match(r"is-Is[A-Z]", first):
            first = "is-" + norm(re.sub(r"(?<=[a-z])([A-Z])", r"-\1", first[5:])).lower()
        for n in range(len(rest), 0, -1):
            if (first, tuple(rest[1:n])) in fn.arms:
                return fn.arms[(first, tuple(rest[1:n]))].split(".") + rest[n:]
        step = fn.steps.get(first, rest[0])
        rest = [step] + rest[1:]
        if first in fn.callee and rest[1:2] == ["new"]:
            names = lent(fn.callee[first])
            k = 0
            while rest[2 + k: 3 + k] == ["1"]:
                k += 1
            if rest[2 + k: 3 + k] == ["0"] and k < len(names):
                rest = rest[:2] + [names[k]] + rest[3 + k:]
        if first in fn.steps and rest[1:2] and rest[1] in WORDS and not (rest[1] == "kept" and re.match(r"(if\d|match|joined)", first)):
            rest[1] = WORDS[rest[1]]
            return self.fields_again(first, rest)
        if rest[0] in FIRST:
            rest[0] = FIRST[rest[0]]
        if rest[0].startswith("if-not-") and rest[1:] in (["true"], ["false"]):
            self.nots = True
            rest[1] += "@NOT"
        return rest

    def body(self, text, var, at):
        """Rewrites a clause's body in which `var` stands at the place `at`."""
        fn = self.fn
        vs = {var}
        changed = True
        while changed:
            changed = False
            v = "|".join(re.escape(x) for x in sorted(vs, key=len, reverse=True))
            pe = rf"(?:{v})(?:\.before)*"
            for h in self.alias:
                text, k = re.subn(rf"\({re.escape(h)} {pe}(?![\w.'])\)", var, text)
                changed |= bool(k)
                text, k = re.subn(rf"\blet ({NAME}) = {re.escape(h)} {pe} in", rf"let \1 = {var} in", text)
                changed |= bool(k)
                # `h c` as a whole side
                text, k = re.subn(rf"(?<![\w.'-]){re.escape(h)} {pe}(?![\w.'])(?=\s*$)", var, text)
                changed |= bool(k)
            m = re.search(rf"\blet ({NAME})(?: : tie\.\S+)? = (?:{pe}) in\s*", text)
            if m:
                vs.add(m[1])
                text = text[: m.start()] + text[m.end():]
                changed = True
        v = "|".join(re.escape(x) for x in sorted(vs, key=len, reverse=True))
        pe = rf"(?<![\w.'-])(?:{v})(?:\.before)*(?![\w'.])"
        for h, (q, _) in self.helper.items():
            k = fn.back(at, q) if at else None
            if k is None:
                if re.search(rf"(?<![\w.'-]){re.escape(h)} {pe}", text):
                    self.say(f"{h} at {at}, which is not behind {q}")
                k = 0
            text = re.sub(rf"(?<![\w.'-]){re.escape(h)} {pe}", h + " " + var + ".before" * k, text)
        steps = fn.steps

        def word(m):
            w = m[0]
            parts = w.split(".")
            if parts[0] in vs and len(parts) > 1:
                rest = [p for p in parts[1:] if p != "before"]
                if not rest:
                    return w if parts[0] == var else ".".join([var] + parts[1:])
                return ".".join([var] + self.fields(rest))
            if parts[0] in vs:
                return var
            return w

        text = TOKEN.sub(word, text)
        text = re.sub(r"(\S*)@NOT", lambda m: "(ap not " + m[1].lstrip("(") + ")" if not m[1].startswith("(") else "(" * (len(m[1]) - len(m[1].lstrip("("))) + "(ap not " + m[1].lstrip("(") + ")", text)
        return text


def convert(folder, key, names, said):
    path = os.path.join(folder, "Proof.antt")
    text = open(path, encoding="utf-8").read()
    its = items(text)
    mod = None
    for it in its:
        if it["kind"] == "use":
            m = re.match(r"use (\S+)\.Tie as (\w+)", it["lines"][0])
            if m:
                mod = m[1]
    if not mod:
        said.append(f"{path}: walks by another form; left")
        return
    fn = Function(names)
    t = Turn(fn, path, said)
    uses = [it["lines"][0] for it in its if it["kind"] == "use"]
    head = []
    for it in its:
        if it["comment"]:
            head = it["comment"]
            it["comment"] = []
            break
        break
    decls = [it for it in its if it["kind"] in ("decl", "block")]
    # which helpers are ways back, and which take a place
    for it in decls:
        if it["kind"] != "decl":
            continue
        sig = " ".join(s.strip() for s in it["sig"])
        ty = sig.split(" : ", 1)[1] if " : " in sig else ""
        ty = re.sub(r" (invariant|decreases)-[\w-]+", "", ty)
        m = re.match(r"^(?:\{[^}]*\} → )*tie\.([A-Z][\w-]*) → tie\.([A-Z][\w-]*)$", ty)
        if m:
            t.alias[it["name"]] = (m[1], m[2])
            it["drop"] = True
            continue
        m = re.match(r"^(?:\((\w+) : tie\.([A-Z][\w-]*)\)|tie\.([A-Z][\w-]*) →)", ty)
        if m and not ty.startswith("tie.Need"):
            p = t.place(m[2] or m[3])
            t.helper[it["name"]] = (p[0] if p else None, p[1] if p else None)
    inv_out, ans_out = [], []
    inv_names = set()
    # an abbreviation at a place is put in by its text
    short = {}
    for it in decls:
        if it["kind"] == "decl" and "abbrev" in it["mods"] and it["name"] in t.helper and not it.get("drop"):
            b = "\n".join(strip(it["body"]))
            m = re.match(rf"^{re.escape(it['name'])} (\S+) =\s*(.*)$", b, re.S)
            if m:
                short[it["name"]] = (m[1], t.helper[it["name"]][0], m[2])
                it["drop"] = True
                del t.helper[it["name"]]
    for it in decls:
        if it["kind"] == "decl" and not it.get("drop") and short:
            for part in ("sig", "body"):
                s = "\n".join(it[part])
                for _ in range(4):
                    for h, (var, q, b) in short.items():
                        arg = r"((?:\([^()]*\)|[\w'-]+)(?:\.before)*)"
                        s = re.sub(rf"\({re.escape(h)} {arg}\)", lambda mm: "(" + TOKEN.sub(lambda w: mm[1] + w[0][len(var):] if w[0].split(".")[0] == var else w[0], " ".join(b.split())) + ")", s)
                        s = re.sub(rf"(?<![\w.'-]){re.escape(h)} {arg}(?![\w'])", lambda mm: "(" + TOKEN.sub(lambda w: mm[1] + w[0][len(var):] if w[0].split(".")[0] == var else w[0], " ".join(b.split())) + ")", s)
                it[part] = s.split("\n")
    for it in decls:
        if it.get("drop"):
            continue
        if it["kind"] == "block":
            it["text"] = "\n".join(strip(it["lines"]))
            if "tie." in it["text"]:
                t.say("a block names `tie`")
            it["to"] = "answers"
            continue
        sig = " ".join(s.strip() for s in it["sig"])
        ty = sig.split(" : ", 1)[1] if " : " in sig else ""
        ty = re.sub(r" (invariant|decreases)-[\w-]+", "", ty)
        body = "\n".join(strip(it["body"]))
        name = it["name"]
        if re.search(r"statement M$", ty):
            it["drop"] = True
            continue
        m = re.match(r"^tie\.(invariant|decreases)-([\w-]+)$", ty)
        if m:
            loop = fn.loops.get(norm(m[2]))
            if not loop:
                t.say(f"no loop {m[2]}")
                it["drop"] = True
                continue
            new, vs, ch = loop
            c = re.match(rf"^{re.escape(name)}((?:\s+[^\s=]+)*?) =\s*(.*)$", body, re.S)
            if not c:
                t.say(f"clause of {name}")
                continue
            args = c[1].split()
            want = [("l." + v if not k else "l.initial." + v) for v, k in zip(vs, ch)] + ["l." + v for v, k in zip(vs, ch) if k]
            if len(args) != len(want):
                t.say(f"{name} has arguments {args}, and the loop {want}")
            table = {a: w for a, w in zip(args, want) if a != "_"}

            def sub(mm):
                parts = mm[0].split(".")
                if parts[0] in table:
                    return ".".join([table[parts[0]]] + parts[1:])
                return mm[0]

            out = f"{m[1]}-{new}"
            b = TOKEN.sub(sub, c[2])
            it["text"] = f"abbrev pub {out} : goal.{out}\n{out} l = {b}"
            it["to"] = "invariants"
            inv_names.add(name)
            continue
        m = re.match(r"^tie\.Need-(\S+)$", ty)
        if m:
            new = fn.need(m[1])
            c = re.match(rf"^((?:unfolding .*\n)*){re.escape(name)} (\S+)((?: [^\s=]+)*?) =\s*(.*)$", body, re.S)
            if not c:
                t.say(f"answer {name} has another form")
                it["drop"] = True
                continue
            b = c[4].strip()
            if b in ("search rules",) and not c[1]:
                it["drop"] = True
                continue
            if not new:
                if not fn.is_settled(m[1]) and b not in ("omega arith", "refl"):
                    t.say(f"no goal {m[1]}; its answer was: {b[:300]}")
                it["drop"] = True
                continue
            at = fn.asked_at[new][0]
            b = t.body(c[4], c[2], at)
            it["text"] = f"pub {new} : goal.{new}\n{c[1]}{new} {c[2]} ={' ' if not b.startswith(chr(10)) else ''}{b}"
            if "\n" in c[4].strip() and not c[4].startswith("\n"):
                it["text"] = f"pub {new} : goal.{new}\n{c[1]}{new} {c[2]} =\n    {b}"
            it["to"] = "answers"
            continue
        # a lemma or a helper
        whole = "\n".join(it["sig"]) + "\n" + body
        if name in t.helper:
            q, new = t.helper[name]
            var = re.match(rf"^(?:unfolding .*\n)*{re.escape(name)} (\S+)", body)
            sv = re.search(r"\((\w+) : tie\.", ty)
            s = "\n".join(it["sig"])
            s = re.sub(r" (invariant|decreases)-[\w-]+", "", s)
            if sv:
                s = t.body(s, sv[1], q)
            if var:
                body = t.body(body, var[1], q)
            s = re.sub(r"tie\.([A-Z][\w-]*)", lambda mm: "@PLACE:" + mm[1] + "@", s)
            whole = s + "\n" + body
        elif "tie." in whole:
            t.say(f"{name} names `tie`")
        it["text"] = whole
        it["to"] = "answers"
    keep = [it for it in decls if "text" in it and not it.get("drop")]
    # what the invariants name goes with them
    need = set(TOKEN.findall("\n".join(i["text"] for i in keep if i["to"] == "invariants")))
    need = {w.split(".")[0] for w in need}
    moved = True
    while moved:
        moved = False
        for it in keep:
            if it["to"] == "answers" and it.get("name") and it["name"] in need and it["kind"] == "decl":
                it["to"] = "invariants"
                if "pub " not in it["mods"]:
                    first, _, more = it["text"].partition("\n")
                    it["text"] = (first.replace("abbrev ", "abbrev pub ", 1) if first.startswith("abbrev ") else ("unfoldable pub " + first[len("unfoldable "):] if first.startswith("unfoldable ") else "pub " + first)) + "\n" + more
                need |= {w.split(".")[0] for w in TOKEN.findall(it["text"])}
                it["shared"] = True
                moved = True

    def assemble(which, extra):
        body = "\n\n".join("\n".join(i["comment"] + [i["text"]]) for i in keep if i["to"] == which)
        if not body:
            return None
        words = set(re.findall(r"[^\s(){}.;,@\"«»]+", body)) | {w.split(".")[0] for w in TOKEN.findall(body)}
        lines = []
        for u in uses:
            if re.search(r"\.(Statement|Tie)\b", u):
                continue
            m = re.match(r"use (\S+?)\.\{(.*)\}$", u)
            if m:
                got = []
                for n in m[2].split(","):
                    n = n.strip()
                    short = n.split(" as ")[-1].strip()
                    ops = [p for p in re.split("◌", short) if p]
                    if (("◌" in short and all(p in words for p in ops)) or short in words) and not (short == "rules" and "rules" not in words):
                        got.append(n)
                if got:
                    lines.append(f"use {m[1]}.{{{', '.join(got)}}}")
            else:
                short = re.match(r"use \S+ as (\S+)", u)
                if short and short[1] in {w.split(".")[0] for w in TOKEN.findall(body)}:
                    lines.append(u)
                elif not short:
                    lines.append(u)
        lines += extra
        return "\n".join(head + lines) + "\n\n" + body + "\n"

    fmod = mod
    # a place is named by the goals that are asked there; any other by `Tie`
    shown = {fn.asked_at[i["text"].split(" ")[1]][1] for i in keep if i["to"] == "answers" and i["text"].startswith("pub ") and i["text"].split(" ")[1] in fn.asked_at}
    # a helper at a place that no goal is asked at becomes a `let` where it is used
    for _ in range(6):
        for it in list(keep):
            h = it.get("name")
            if h not in t.helper or it["kind"] != "decl" or "@PLACE:" not in it["text"]:
                continue
            q, new = t.helper[h]
            users = [u for u in keep if u is not it and u["kind"] == "decl" and re.search(rf"(?<![\w.'-]){re.escape(h)}(?![\w'-])", u["text"])]
            if new in shown and all(not re.search(rf"(?<![\w.'-]){re.escape(h)} \w+\.before", u["text"]) for u in users):
                continue
            m = re.match(rf"^(?:abbrev |unfoldable |pub )*{re.escape(h)} : (?:\((\S+) : @PLACE:[^@]*@\)|@PLACE:[^@]*@)\s*→\s*(.*?)\n((?:unfolding [^\n]*\n)*){re.escape(h)} (\S+)((?: [^\s=]+)*?) =\s*(.*)$", it["text"], re.S)
            if not m or "@PLACE" in m[2] or m[2].count("@"):
                t.say(f"{h} at {new}, where no goal is asked")
                keep.remove(it)
                continue
            var, ty, unf, bvar, args, body = m[1], m[2], m[3], m[4], m[5].split(), m[6]
            ren = lambda s, a, z: TOKEN.sub(lambda mm: ".".join([z] + mm[0].split(".")[1:]) if mm[0].split(".")[0] == a else mm[0], s)
            for user in keep:
                if user is it or user["kind"] != "decl":
                    continue
                cm = re.match(r"^(.*?\n)((?:unfolding [^\n]*\n)*)(\S+) (\S+)((?: [^\s=]+)*?) =\s*(.*)$", user["text"], re.S)
                if not cm:
                    continue
                use = rf"(?<![\w.'-]){re.escape(h)} {re.escape(cm[4])}(?:\.before)*(?![\w'.])"
                if not re.search(use, cm[6]) and not re.search(use, cm[1]):
                    continue
                if re.search(use, cm[1]):
                    t.say(f"{h} in the type of {user['name']}")
                b2 = re.sub(rf"\({use}\)", h, cm[6])
                b2 = re.sub(use, h, b2)
                tt = ren(ty, var, cm[4]) if var else ty
                tt = " ".join(tt.split())
                bb = ren(body, bvar, cm[4])
                if args:
                    bb = "λ " + " ".join(args) + ". " + bb.strip()
                u = "" if not unf else unf
                user["text"] = f"{cm[1]}{cm[2]}{u if u not in cm[2] else ''}{cm[3]} {cm[4]}{cm[5]} =\n    let {h} : {tt} = {bb.strip()} in\n    {b2.strip()}"
            keep.remove(it)

    def show(mm):
        p = t.place(mm[1])
        return "goal." + (p[1] if p else mm[1])

    for i in keep:
        i["text"] = re.sub(r"@PLACE:([^@]*)@", show, i["text"])
    if t.nots:
        uses.append("use Rattle.std.proofs.Common.{ap, not}")
    inv = assemble("invariants", [f"use {fmod}.Given as goal"])
    shared = [i["name"] for i in keep if i.get("shared")]
    extra = [f"use {fmod}.Goals as goal"]
    if inv and shared:
        awords = {w.split(".")[0] for i in keep if i["to"] == "answers" for w in TOKEN.findall(i["text"])}
        sh = [s for s in shared if s in awords]
        if sh:
            extra = [f"use {fmod}.Invariants.{{{', '.join(sh)}}}"] + extra
    ans = assemble("answers", extra)
    if ans and not any(i["to"] == "answers" and i["text"].startswith("pub ") for i in keep):
        # only lemmas that nothing asks for
        t.say("no answer is left; its lemmas: " + ", ".join(i["name"] for i in keep if i["to"] == "answers"))
        ans = None
    os.remove(path)
    if inv:
        open(os.path.join(folder, "Invariants.antt"), "w", encoding="utf-8").write(inv)
    if ans:
        open(os.path.join(folder, "Answers.antt"), "w", encoding="utf-8").write(ans)
    if not os.listdir(folder):
        os.rmdir(folder)


def main():
    for crate in sys.argv[1:]:
        base = os.path.join("crates", crate)
        with tempfile.TemporaryDirectory() as d:
            r = subprocess.run(["rt", "check", "--generated", os.path.join(d, "n"), "--old-names"], cwd=base, capture_output=True, text=True)
            try:
                names = json.load(open(os.path.join(d, "n", "names.json")))
            except OSError:
                print(r.stdout[-3000:], r.stderr[-3000:])
                raise SystemExit(1)
        said = []
        for folder, dirs, fs in sorted(os.walk(os.path.join(base, "proofs"))):
            if "Proof.antt" not in fs:
                continue
            rel = os.path.relpath(folder, os.path.join(base, "proofs")).replace(os.sep, ".")
            key = f"Rattle-{crate}-proofs.{rel}.Lts"
            if key not in names:
                said.append(f"{folder}: no names ({key})")
                continue
            convert(folder, key, names[key], said)
        print("\n".join(said))
        print(f"{crate}: {len(said)} things to look at")


main()
