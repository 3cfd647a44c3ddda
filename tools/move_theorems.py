#!/usr/bin/env python3
"""Moves theorems from crates/NAME/specs/M.antt to crates/NAME/proofs/M.antt. Run at the top of a checkout: python3 split.py [NAME..].
With names: only those crates of the table. Twice is as once: what was moved is not moved again. It was run once; docs/PORT.md lists what moved."""
import os
import re
import sys

# crate -> module -> how. How is a dict: 'all': True moves the whole file; else the definitions (abbrev, unfoldable, record, data, marked pub, outside of a
# `module _` block or cited by what stays) stay in specs/, and the theorems move.
# 'keep': names that stay too; 'move': names that move too; 'to': {other proofs module: names that go there in place of proofs/M}.
TABLE = {
    "laws": {"Below": {}, "Bits": {}, "Ones": {}},
    "fuse": {"Burn": {}, "Charge": {}},
    "map": {"Laws": {}, "Guides": {}},
    "partition": {"Laws": {"to": {"StateIs": ["erased_is"]}}, "Marked": {}},
    "plan": {"Laws": {"to": {"ReadDecimal": ["digit_is", "read_decimal"]}}, "Fields": {}, "Images": {}, "Steps": {}, "Valid": {}, "Answers": {}, "Exactly": {}, "Longest": {"to": {"PastLongest": ["past_any_text"]}}},
    "burns": {"Cells": {}, "Charge": {}, "Ends": {}, "Safe": {}, "Stops": {}, "Turns": {}},
    "codec": {"Laws": {}},
    "cache": {"Laws": {}, "After": {}},
    "reason": {"Laws": {}, "Exactly": {}},
    "erasure": {"Laws": {}, "Parts": {}, "Cuts": {}, "Ends": {"to": {"Leaves": ["run_left_as", "any_leaves", "erasure_leaves", "cut_erasure_leaves"]}}, "Charge": {}},
    "direct": {"Laws": {}},
    "mailbox": {"Laws": {}, "Handles": {}, "Judging": {}, "Told": {}},
    "history": {m: ({"to": {"Shown": ["shown_least"]}} if m == "Secrets" else {}) for m in "Attempts Charge Demand3 Demand3Proof Fifteen Forms Fronts Guides GuidesProof Handles HandlesProof HeldKeys Kept Orders OrdersProof Reached Recovery Refused Secrets Settled Standing Words Zeroize".split()},
    "report": {"Laws": {}, "Longer": {}, "Maps": {}},
    "wording": {"Laws": {}},
}

WORD = r"[^\s(){}\[\];,.@\"]+"
MARK = re.compile(r"((?:(?:pub|abbrev|unfoldable|private) )*)(record |data )?(?=\S)")
LIMIT = 160


def read(path):
    with open(path, encoding="utf-8") as it:
        return it.read()


def write(path, text):
    os.makedirs(os.path.dirname(path), exist_ok=True)
    with open(path, "w", encoding="utf-8") as it:
        it.write(text)


def code(text):
    return "\n".join(re.sub(r"(^|\s)--.*", "", l) for l in text.split("\n"))


def words(text):
    t = code(text)
    # (what follows a dot is a field, or is found by the name before it)
    found = set(re.findall(rf"(?<![^\s(){{}}\[\];,@\"]){WORD}|(?<=[ (]\.){WORD}", t))
    if re.search(r"\[\s*\]", t):
        found.add("[]")
    return found


def uses(found, name):
    parts = [p for p in name.split("◌") if p.strip()]
    return all(p in found for p in parts)


class Decl:
    """A declaration with the comments that head it, or a `module _` block."""

    def __init__(self, lines, indent):
        self.lines, self.indent = lines, indent
        body = [l for l in lines if l.strip() and not l.strip().startswith("--")]
        self.comment_only = not body
        self.children = None
        self.names, self.is_def, self.is_pub, self.mark = [], False, False, False
        if self.comment_only:
            return
        first = body[0][indent:]
        if first.startswith("module "):
            at = next(i for i, l in enumerate(lines) if l[indent:].startswith("module "))
            self.head = lines[: at + 1]
            end = at + 1
            while not self.head[-1].rstrip().endswith("where"):
                self.head.append(lines[end])
                end += 1
            self.children = blocks(lines[end:], indent + 2)
            return
        for l in body:
            l = l[indent:]
            if l.startswith(" "):
                continue
            m = re.match(r"(infix|infixl|infixr) \d+ (\S+)", l)
            if m:
                continue
            m = re.match(r"((?:(?:pub|abbrev|unfoldable|private) )*)(record |data )?(" + WORD + r")", l)
            if not m or m[3] in ("unfolding", "}", "syntax"):
                continue
            marked = bool(m[1] or m[2])
            if marked or re.match(r"\S+ *:", l):
                n = m[3]
                if n not in self.names:
                    self.names.append(n)
                if "abbrev" in m[1] or "unfoldable" in m[1] or m[2]:
                    self.is_def = True
                if "pub" in m[1]:
                    self.is_pub = True
                if m[2]:
                    # the constructors of a data, and the record's fields, are known through it
                    pass
        if re.search(r"^\s*(pub )?data ", "\n".join(body)):
            for l in body[1:]:
                m = re.match(r"\s+(?:pub )?(" + WORD + r") :", l)
                if m:
                    self.names.append(m[1])

    def text(self):
        return "\n".join(self.lines)

    def all(self):
        if self.children is None:
            return [self]
        return [d for c in self.children for d in c.all()]


def blocks(lines, indent):
    """Cuts lines at blank lines that are followed by a line at this indent."""
    out, now = [], []
    for i, l in enumerate(lines):
        if not l.strip():
            j = i
            while j < len(lines) and not lines[j].strip():
                j += 1
            if j < len(lines) and len(lines[j]) - len(lines[j].lstrip()) <= indent and now:
                out.append(now)
                now = []
                continue
            if now:
                now.append(l)
            continue
        now.append(l)
    if now:
        out.append(now)
    out = [[*o] for o in out]
    for o in out:
        while o and not o[-1].strip():
            o.pop()
    return [Decl(o, indent) for o in out if o]


class File:
    def __init__(self, path):
        self.text = read(path)
        lines = self.text.rstrip("\n").split("\n")
        at = 0
        while at < len(lines) and lines[at].startswith("--"):
            at += 1
        self.comment = lines[:at]
        self.uses = []
        while at < len(lines) and (not lines[at].strip() or lines[at].startswith(("use ", "pub use "))):
            if lines[at].strip():
                self.uses.append(lines[at])
            at += 1
        self.decls = blocks(lines[at:], 0)
        # a file's head comment with no use lines before a declaration would be the declaration's: none here

    def all(self):
        return [d for c in self.decls for d in c.all()]


def params(head):
    """The explicit parameters of a module's head."""
    t = " ".join(h.strip() for h in head if not h.strip().startswith("--"))
    t = t[t.index("module") + 6 :].strip()
    t = t[1:].strip()
    out, depth, now = [], 0, ""
    for ch in t:
        if ch in "({":
            depth += 1
            if depth == 1:
                now, kind = "", ch
                continue
        if ch in ")}":
            depth -= 1
            if depth == 0:
                if kind == "(":
                    out += now.split(":")[0].split()
                continue
        if depth:
            now += ch
    return out


def pick(decls, keep, where):
    """The declarations for which keep(d) holds, with their modules' heads and their sections' comments."""
    out, section = [], []
    for d in decls:
        if d.comment_only:
            section = d.lines if section is None or not where.get("merge") else section
            section = d.lines
            continue
        if d.children is not None:
            inner = pick(d.children, keep, where)
            if inner:
                if section:
                    out += [*section, ""]
                    section = []
                out += [*d.head, *inner, ""]
            continue
        if keep(d):
            if section:
                out += [*section, ""]
                section = []
            out += [*d.lines, ""]
    while out and not out[-1].strip():
        out.pop()
    return out


def parse_use(line):
    m = re.match(r"((?:ghost )?(?:pub )?use )(\S+?)\.\{(.*)\}(;?)\s*$", line)
    return (m[1], m[2], [n.strip() for n in m[3].split(",")], m[4]) if m else None


def format_use(head, path, names, end):
    lines, now = [], []
    for n in names:
        if now and len(f"{head}{path}.{{{', '.join([*now, n])}}}{end}") > LIMIT:
            lines.append(f"{head}{path}.{{{', '.join(now)}}}{end}")
            now = []
        now.append(n)
    if now:
        lines.append(f"{head}{path}.{{{', '.join(now)}}}{end}")
    return lines


def trimmed(use_lines, body):
    """The use lines with only the names that the body has."""
    found, out = words("\n".join(body)), []
    for l in use_lines:
        p = parse_use(l)
        if p:
            names = [n for n in p[2] if uses(found, n.split(" as ")[-1].strip())]
            if len(names) == len(p[2]):
                out.append(l)
            elif names:
                out += format_use(p[0], p[1], names, p[3])
        else:
            m = re.match(r"use \S+ as (\S+)|use (\S+)", l)
            n = m[1] or m[2].split(".")[-1]
            if n in found:
                out.append(l)
    return out


def edits_of(crate):
    folder = f"crates/{crate}/must-fail"
    return sorted(f"{folder}/{f}" for f in os.listdir(folder) if f.endswith(".edit")) if os.path.isdir(folder) else []


def edited_texts(crate):
    """file -> the old texts of the edits in it"""
    out = {}
    for e in edits_of(crate):
        path = None
        for l in read(e).split("\n"):
            if l.startswith("file: "):
                path = l[6:].strip()
            if l.startswith("old: "):
                out.setdefault(path, []).append(l[5:])
    return out


def sources(crate):
    for at, _, names in os.walk(f"crates/{crate}"):
        if "/out" in at or "/must-fail" in at:
            continue
        for n in sorted(names):
            if n.endswith((".antt", ".rt")):
                yield f"{at}/{n}"


def cited(crate, module, skip):
    """Names of specs.MODULE that the crate's own contracts and its files of specs/ that stay cite, and the contracts of the others."""
    out = set()
    for c in sorted(os.listdir("crates")):
        for path in sources(c):
            own = c == crate and path.startswith(f"crates/{c}/specs/")
            if not (path.endswith(".rt") or own):
                continue
            if own and os.path.basename(path)[:-5] in skip:
                continue
            t = read(path)
            for m in re.finditer(rf"use Rattle\.{crate}\.specs\.{module}\.\{{([^}}]*)\}}", t):
                out |= {n.split(" as ")[0].strip() for n in m[1].split(",")}
            out |= set(re.findall(rf"Rattle\.{crate}\.specs\.{module}\.({WORD})", t))
    return out


class Plan:
    """What of a module moves and where to."""

    def __init__(self, crate, module, how, forced):
        self.crate, self.module, self.how = crate, module, how
        self.path = f"crates/{crate}/specs/{module}.antt"
        self.file = File(self.path)
        self.decls = self.file.all()
        inside = {id(d) for c in self.file.decls if c.children is not None for d in c.all()}
        texts = edited_texts(crate).get(f"specs/{module}.antt", [])
        self.stay = set()
        extra_keep, extra_move = set(how.get("keep", [])), set(how.get("move", []))
        if not how.get("all"):
            for d in self.decls:
                if d.comment_only or not d.names:
                    continue
                names = set(d.names)
                if names & extra_move:
                    continue
                if names & (extra_keep | forced):
                    self.stay.add(id(d))
                elif d.is_def and any(t in d.text() for t in texts):
                    self.stay.add(id(d))
                elif d.is_def and d.is_pub and id(d) not in inside:
                    self.stay.add(id(d))
        self.close()
        if os.environ.get("SAY"):
            for d in self.decls:
                if id(d) in self.stay and (not d.is_def or id(d) in inside):
                    print("stays:", crate, module, d.names, "in module" if id(d) in inside else "", file=sys.stderr)
        self.moved = {}
        for d in self.decls:
            if id(d) not in self.stay:
                for n in d.names:
                    self.moved[n] = self.target(d)

    def close(self):
        """What a declaration that stays names stays."""
        by = {n: d for d in self.decls for n in d.names}
        todo = [d for d in self.decls if id(d) in self.stay]
        while todo:
            d = todo.pop()
            found = words(d.text())
            for n, other in by.items():
                if id(other) not in self.stay and other is not d and uses(found, n) and n not in local_names(d):
                    self.stay.add(id(other))
                    todo.append(other)

    def target(self, d):
        for m, names in self.how.get("to", {}).items():
            if set(d.names) & set(names):
                return m
        return self.module


def local_names(d):
    """The names that a declaration binds itself: fields, parameters, variables of clauses, of lets and of lambdas."""
    t = code(d.text())
    out = set()
    for group in re.findall(r"[({]([^(){}:,;]+?) :", t):
        out |= set(group.split())
    for line in t.split("\n"):
        m = re.match(r"\s+pub (\S+) :", line)
        if m and re.search(r"^\s*(pub )?record ", t, re.M):
            out.add(m[1])
    for group in re.findall(r"λ ([^.]*)\.", t):
        out |= set(re.findall(WORD, group))
    out |= set(re.findall(r"\blet (\S+) ", t))
    for n in d.names:
        for left in re.findall(rf"^\s*{re.escape(n)} ([^=\n]*) =", t, re.M):
            out |= {w for w in re.findall(WORD, left) if w[0].islower()}
    return out - set(d.names)


def statement(d):
    lines = [l for l in d.lines]
    out = []
    for l in lines:
        s = l[d.indent :]
        if s.startswith("--"):
            continue
        if not d.is_def and (s.startswith("unfolding ") or (out and re.match(re.escape(d.names[0]) + r"\b(?! *:)", s)) or (s and not s.startswith(" ") and out)):
            break
        out.append(s)
    return "\n".join(out).rstrip()


def declare(lib, module, first):
    t = read(lib) if os.path.exists(lib) else ""
    if not re.search(rf"^(pub )?mod {module}$", t, re.M):
        write(lib, t + f"pub mod {module}\n")


def undeclare(lib, module):
    t = read(lib)
    write(lib, re.sub(rf"^(pub )?mod {module}\n", "", t, flags=re.M))


def run(names):
    report = []
    for crate, modules in TABLE.items():
        if names and crate not in names or not os.path.isdir(f"crates/{crate}"):
            continue
        modules = {m: how for m, how in modules.items() if os.path.exists(f"crates/{crate}/specs/{m}.antt") and not os.path.exists(f"crates/{crate}/proofs/{m}.antt")}
        if not modules:
            continue
        plans = {}
        # (what the part of another split module that stays cites stays too: to a fixed point)
        forced = {m: cited(crate, m, set(modules)) for m in modules}
        while True:
            plans = {m: Plan(crate, m, how, forced[m]) for m, how in modules.items()}
            more = False
            for m, p in plans.items():
                kept = "\n".join(d.text() for d in p.decls if id(d) in p.stay)
                found = words(kept)
                for l in p.file.uses:
                    u = parse_use(l)
                    hit = u and re.fullmatch(rf"Rattle\.{crate}\.specs\.(\w+)", u[1])
                    if hit and hit[1] in plans:
                        for n in u[2]:
                            n = n.split(" as ")
                            if uses(found, n[-1].strip()) and n[0].strip() in plans[hit[1]].moved and n[0].strip() not in forced[hit[1]]:
                                forced[hit[1]].add(n[0].strip())
                                more = True
            if not more:
                break
        for m, p in plans.items():
            report += apply(p)
        moved = {m: p.moved for m, p in plans.items() if p.moved}
        rewrite(crate, moved)
        follow(crate, moved)
        for m in moved:
            retrim(crate, m)
    if report:
        print("\n".join(report))


def apply(p):
    crate, m = p.crate, p.module
    if not p.moved:
        return []
    lib = f"crates/{crate}/proofs/Lib.antt"
    stay_names = [n for d in p.decls if id(d) in p.stay for n in d.names]
    # the parameters of the modules that stay declarations are in, for those that are cited from where they were
    inner, within = {}, {}

    def walk(decls, ps, heads=()):
        for d in decls:
            within[id(d)] = heads
            if d.children is not None:
                walk(d.children, ps + params(d.head), (*heads, " ".join(h.strip() for h in d.head if not h.strip().startswith("--"))))
            elif id(d) in p.stay and ps:
                for n in d.names:
                    inner[n] = ps

    walk(p.file.decls, [])
    targets = {}
    for d in p.decls:
        if id(d) not in p.stay and d.names:
            targets.setdefault(p.target(d), []).append(d)
    # stays
    body = pick(p.file.decls, lambda d: id(d) in p.stay, {})
    moved_text = "\n".join(d.text() for d in p.decls if id(d) not in p.stay)
    found = words(moved_text)
    fix = {n for d in p.decls if id(d) in p.stay and not d.is_pub for n in d.names if uses(found, n)}
    body = opened(body, fix)
    out = []
    # the order of targets: others first see which names they need of one another
    names_of = {t: [n for d in ds for n in d.names] for t, ds in targets.items()}
    for t, ds in targets.items():
        ids = {id(d) for d in ds}
        text = pick(p.file.decls, lambda d: id(d) in ids, {})
        # what another target needs must be pub
        for o, other in targets.items():
            if o != t:
                f = words("\n".join(d.text() for d in other))
                text = opened(text, {n for d in ds if not d.is_pub for n in d.names if uses(f, n)})
        for n, ps in inner.items():
            text = [l if l.strip().startswith(("--", "unfolding ")) else re.sub(rf"(?<![^\s(){{}}\[\];,@\"])(?<!\.){re.escape(n)}(?![^\s(){{}}\[\];,.@\"])", f"({n} {' '.join(ps)})", l) for l in text]
        f = words("\n".join(text))
        own = [n for n in stay_names if uses(f, n)]
        extra = format_use("use ", f"Rattle.{crate}.specs.{m}", own, "") if own else []
        for o, ns in names_of.items():
            if o != t:
                need = [n for n in ns if uses(f, n)]
                if need:
                    extra += format_use("use ", f"Rattle.{crate}.proofs.{o}", need, "")
        head = [*p.file.comment, *([f"-- The definitions stand in specs/{m}.antt."] if body else [])]
        lines = [*head, *trimmed(p.file.uses, text), *extra, "", *text, ""]
        write(f"crates/{crate}/proofs/{t}.antt", "\n".join(lines))
        declare(lib, t, False)
        for d in ds:
            kind = "" if not d.is_def else " (a helper definition of these theorems)"
            heads = "".join(h + "\n" for h in within.get(id(d), []))
            out.append(f"- {crate}: specs/{m}.antt to proofs/{t}.antt{kind}\n\n```\n{heads}{statement(d)}\n```\n")
    if body:
        write(p.path, "\n".join([*p.file.comment, f"-- The theorems stand in {' and '.join(f'proofs/{x}.antt' for x in targets)}.", *trimmed(p.file.uses, body), "", *body, ""]))
    else:
        os.remove(p.path)
        undeclare(f"crates/{crate}/specs/Lib.antt", m)
    return out


def opened(lines, names):
    out = []
    for l in lines:
        m = re.match(r"(\s*)((?:abbrev |unfoldable )*)((?:record |data )?)(" + WORD + r")(.*)", l)
        if m and m[4] in names and (m[2] or m[3] or m[5].lstrip().startswith(":")) and "pub" not in m[2]:
            l = f"{m[1]}{m[2]}pub {m[3]}{m[4]}{m[5]}"
        out.append(l)
    return out


def rewrite(crate, moved):
    """Rewrites each import and each path of what moved, in the whole repository."""
    for c in sorted(os.listdir("crates")):
        files = [*sources(c), *edits_of(c)]
        for path in files:
            t = was = read(path)
            if f"Rattle.{crate}.specs." not in t:
                continue
            lines = []
            for l in t.split("\n"):
                lead = ""
                if path.endswith(".edit"):
                    k = re.match(r"(old: |new: )(.*)", l)
                    lead, l = (k[1], k[2]) if k else ("", l)
                u = parse_use(l) if l.lstrip().startswith(("use ", "ghost use ", "pub use ", "ghost pub use")) else None
                ind = ""
                if not u and re.match(r"\s+(ghost )?use ", l):
                    ind = re.match(r"\s+", l)[0]
                    u = parse_use(l.strip())
                hit = u and re.fullmatch(rf"Rattle\.{crate}\.specs\.(\w+)", u[1])
                if hit and hit[1] in moved and not lead:
                    names, groups = moved[hit[1]], {}
                    for n in u[2]:
                        groups.setdefault(names.get(n.split(" as ")[0].strip()), []).append(n)
                    if set(groups) != {None}:
                        for to, ns in groups.items():
                            at = u[1] if to is None else f"Rattle.{crate}.proofs.{to}"
                            lines += [ind + x for x in format_use(u[0], at, ns, u[3])]
                        continue
                else:
                    for m, names in moved.items():
                        l = re.sub(
                            rf"Rattle\.{crate}\.specs\.{m}\.({WORD})",
                            lambda x: f"Rattle.{crate}.proofs.{names[x[1]]}.{x[1]}" if x[1] in names else x[0],
                            l,
                        )
                lines.append(lead + l)
            t = "\n".join(lines)
            if t != was:
                write(path, t)


def follow(crate, moved):
    """The edits of what moved name the file where it stands now."""
    for e in edits_of(crate):
        path, out, shown = None, [], None
        for l in read(e).split("\n"):
            if l.startswith("file: "):
                path = l[6:].strip()
                shown = None
                m = re.fullmatch(r"specs/(\w+)\.antt", path)
                if not (m and m[1] in moved):
                    shown = path
                    out.append(l)
                continue
            if l.startswith("old: "):
                want = path
                m = re.fullmatch(r"specs/(\w+)\.antt", path)
                if m and m[1] in moved:
                    old = l[5:]
                    places = [path, *(f"proofs/{t}.antt" for t in dict.fromkeys(moved[m[1]].values()))]
                    has = [p for p in places if os.path.exists(f"crates/{crate}/{p}") and old in read(f"crates/{crate}/{p}")]
                    if len(has) == 1:
                        want = has[0]
                    else:
                        print(f"{e}: the old text is in {has or 'no file'}: {old}")
                if want != shown:
                    out.append(f"file: {want}")
                    shown = want
            out.append(l)
        t = "\n".join(out)
        if t != read(e):
            write(e, t)


def retrim(crate, module):
    pass


if __name__ == "__main__":
    run(sys.argv[1:])
