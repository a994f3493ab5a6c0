#!/usr/bin/env python3
"""Brings the names of definitions and lemmas to today's spelling, after the kit's port.py has run; it is run once, at the top.

    python3 tools/port_names.py            rewrites specs/, proofs/, the clauses of src/ and the must-fail edits
    python3 tools/port_names.py --list     prints each old name and its new one, and changes nothing

The rules are those of the kit's CONTRACT_STYLE.md, "Names". A definition or a lemma is in snake case: readAmount is read_amount. A type keeps
its capitals. A dash joins two names; a plain word is added with an underscore: number-room is number_room, length-build stays. The places of a
record's fields, once in capitals, are named for what they are: PAYER is payer_field. Names of the Rust code, of the kit and of FIPS 180-4
(Ch, Maj, Σ0, K, ..) keep their spelling, and so do strings.
"""
import os
import re
import sys

# a record's places (crates/record/specs/Layout.antt)
PLACES = "ID STATE PAYER PAYEE ENDED-BY CODE REMAINDER UNITS EXPIRATION CONDITION FULFILMENT PACKET NUMBER".split()

# names that would fall together with another's new name: a lemma gets _lem, as where a lemma would have its function's name
APART = {"ended_at": "ended_at_lem", "held_in": "held_in_lem", "left_by": "left_by_lem", "other_length": "other_length_lem",
         "state-of": "state_of_lem", "sameBytes": "is_same"}
# a field of a record, and a lemma that no file names beside it
BESIDE = {"endedBy"}

# words of the kit's library that lemmas are named for
STD = """length append take drop set sets replicate get_or map reverse sum count filter first all any min max suc zero add sub mul div rem mod pow
eq lt le eqb ltb leb cond not and or xor bit_and bit_or bit_xor to_ℕ of_ℕ neg abs paste slice_get slice_index slice_set slice_range concat snoc cons
nil head tail last find position same prefix""".split()

TOKEN = re.compile(r'[^\s(){}\[\];,."⌜⌝]+')
DECLARED = re.compile(r"^\s*(?:(?:unfoldable|abbrev|pub|data|record)\s+)*([^\s:(){}\"]+)\s*:(?=\s|$)")
HEADED = re.compile(r"^\s*(?:pub\s+)?(data|record)\s+([^\s:(){}]+)")
WORD = re.compile(r"^\s*(?:unfoldable|abbrev)\s+(?:pub\s+)?([^\s:(){}\"]+)\s*:(?=\s|$)")
CAMEL = re.compile(r"^[a-z][a-z0-9]*[A-Z]")


def files(end):
    for folder, dirs, names in os.walk("."):
        dirs[:] = sorted(d for d in dirs if d not in ("out", "target", "build", ".git"))
        for name in sorted(names):
            if name.endswith(end) and (folder.startswith("./crates/") or folder.startswith("./tests/edits/")):
                yield os.path.join(folder, name)


def read(path):
    with open(path, encoding="utf-8") as f:
        return f.read()


def code_of(line):
    """A line of antt without its comment."""
    return re.split(r"(?:^|\s)--(?=\s|$)", line)[0]


def snake(part):
    """readAmount as read_amount; a part that begins with a capital is a type, and stays."""
    if not CAMEL.match(part):
        return part
    return re.sub(r"[A-Z]", lambda m: "_" + m.group().lower(), part)


def joined(name, words):
    """The parts of a name that dashes join: a dash stays between two words, and is an underscore elsewhere."""
    parts = [snake(p) for p in name.split("-")]
    out, group = parts[0], parts[0]
    for part in parts[1:]:
        known = lambda w: w in words or w[:1].isupper()
        if known(group) and known(part):
            out, group = out + "-" + part, part
        else:
            out, group = out + "_" + part, group + "_" + part
    return out


def kit_names():
    """What the kit's library declares: such a name is not ours to spell."""
    kit = os.path.realpath(os.path.join(os.path.dirname(os.path.realpath(KIT)), ".."))
    names = set()
    for folder, _, fs in os.walk(os.path.join(kit, "rattle")):
        if "/examples" in folder or "/docs" in folder:
            continue
        for f in fs:
            if f.endswith(".antt"):
                for line in open(os.path.join(folder, f), encoding="utf-8", errors="replace"):
                    m = DECLARED.match(code_of(line))
                    if m:
                        names.add(m.group(1))
    return names


def kit():
    for folder in os.environ["PATH"].split(":"):
        if os.path.exists(os.path.join(folder, "rt")):
            return os.path.join(folder, "rt")
    raise SystemExit("port_names: rt is not on the PATH")


KIT = kit()


def gather():
    declared, words, tokens = {}, set(), set()
    for path in files(".antt"):
        # the proof of a function is named after what Rattle makes of its code: only its own lemmas are ours
        made = set()
        lines = [code_of(l) for l in read(path).split("\n")]
        for line in lines:
            tokens |= set(TOKEN.findall(line))
            m = DECLARED.match(line)
            if m and (" tie." in line or line.rstrip().endswith("statement M")):
                made.add(m.group(1))
        for line in lines:
            m, w, h = DECLARED.match(line), WORD.match(line), HEADED.match(line)
            if h:
                words.add(h.group(2))
            if w and w.group(1) not in made:
                words.add(w.group(1))
            if m and m.group(1) not in made:
                declared.setdefault(m.group(1), set()).add(path)
    return declared, words, tokens


def mapping():
    declared, words, tokens = gather()
    std = kit_names()
    spelled = {snake(w) for w in words} | set(STD)
    new = {}
    for name in set(declared) | {t for t in tokens if CAMEL.match(t)} | set(APART):
        if name not in APART and (name in std or "◌" in name or name in PLACES):
            continue
        dashed = "-" in name and name in declared
        to = APART.get(name) or (joined(name, spelled) if dashed else snake(name) if CAMEL.match(name) else name)
        if to != name:
            new[name] = to
    words_to = {to for name, to in new.items() if CAMEL.match(name)} - {new[n] for n in APART}
    taken = {}
    clash = []
    for name in sorted(new):
        to = new[name]
        if not CAMEL.match(name) and name not in APART and to in words_to:
            to = new[name] = to + "_lem"
        if to in taken or to in declared and to not in new and name not in BESIDE:
            clash.append((name, to, taken.get(to, "a name that stands")))
        taken[to] = name
    return new, clash


def turn_antt(text, new, places):
    out = []
    for line in text.split("\n"):
        quoted = re.split(r'("(?:[^"\\]|\\.)*")', line)
        for i in range(0, len(quoted), 2):
            code, comment = code_of(quoted[i]), quoted[i][len(code_of(quoted[i])):]
            code = TOKEN.sub(lambda m: places.get(m.group(), new.get(m.group(), m.group())), code)
            comment = TOKEN.sub(lambda m: new.get(m.group(), m.group()) if CAMEL.match(m.group()) else m.group(), comment)
            quoted[i] = code + comment
        out.append("".join(quoted))
    return "\n".join(out)


def clauses(text):
    """Where the ghost text of a source lies: imports, and what stands between the braces of a clause."""
    spans = [m.span() for m in re.finditer(r"^ghost use [^;]*;", text, re.M)]
    for m in re.finditer(r"^\s*(?:requires|ensures|ghost)\*?(?: \w+)?:? \{", text, re.M):
        depth, i = 1, m.end()
        while depth:
            depth += {"{": 1, "}": -1}.get(text[i], 0)
            i += 1
        spans.append((m.end(), i))
    return sorted(spans)


def turn_rt(text, new, places):
    out, at = [], 0
    for a, b in clauses(text):
        out += [text[at:a], turn_antt(text[a:b], new, places)]
        at = b
    out.append(text[at:])
    return "".join(out)


def turn_edit(text, new, places):
    antt = False
    out = []
    for line in text.split("\n"):
        if line.startswith("file: "):
            antt = line.endswith(".antt")
        if line[:5] in ("old: ", "new: ") and (antt or "⌜" in line or "ghost use" in line):
            line = line[:5] + turn_antt(line[5:], new, places)
        out.append(line)
    return "\n".join(out)


def main():
    new, clash = mapping()
    if "--list" in sys.argv:
        for name in sorted(new):
            print(name, new[name])
    for it in clash:
        print("falls together:", *it, file=sys.stderr)
    if "--list" in sys.argv or clash:
        return 1 if clash else 0
    places = {p: p.lower().replace("-", "_") + "_field" for p in PLACES}
    for path in list(files(".antt")) + list(files(".rt")) + list(files(".edit")):
        text = read(path)
        here = places if path.endswith(".edit") or "Layout" in text or path.endswith("record/specs/Layout.antt") else {}
        turned = {".antt": turn_antt, ".rt": turn_rt}.get(os.path.splitext(path)[1], turn_edit)(text, new, here)
        if turned != text:
            with open(path, "w", encoding="utf-8") as f:
                f.write(turned)
    return 0


if __name__ == "__main__":
    raise SystemExit(main())
