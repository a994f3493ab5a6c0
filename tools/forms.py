#!/usr/bin/env python3
"""Write the tables by which crates/form judges DateTime and UUID texts.

The forms are those of crates/form/specs/Listings.antt. Each state is what is left of a form after a text (its derivative), so a table is not
trusted: one computed test in crates/form/proofs compares it with the listing, state by state and byte by byte.

    tools/forms.py            writes crates/form/src/tables.rt and crates/form/proofs/Words.antt
    tools/forms.py --check    fails if they differ from what it would write
"""
import os
import sys

WIDTH = 32  # numbers in a row: the end of the text, then the classes of bytes
STOP = 255

# Forms, built as in specs/Regex.antt.
NONE, EMPTY = ("none",), ("empty",)


def span(a, b):
    return ("range", ord(a), ord(b))


def char(c):
    return span(c, c)


def seq(*parts):
    return parts[0] if len(parts) == 1 else ("seq", parts[0], seq(*parts[1:]))


def alt(*parts):
    return parts[0] if len(parts) == 1 else ("alt", parts[0], alt(*parts[1:]))


def times(n, r):
    return EMPTY if n == 0 else ("seq", r, times(n - 1, r))


def any_of(letters):
    return alt(*[char(c) for c in letters])


def nullable(r):
    kind = r[0]
    if kind == "seq":
        return nullable(r[1]) and nullable(r[2])
    if kind == "alt":
        return nullable(r[1]) or nullable(r[2])
    return kind == "empty"


def seq_of(p, q):
    return NONE if p == NONE else q if p == EMPTY else ("seq", p, q)


def alt_of(p, q):
    return q if p == NONE else p if q == NONE else ("alt", p, q)


def deriv(c, r):
    kind = r[0]
    if kind == "range":
        return EMPTY if r[1] <= c <= r[2] else NONE
    if kind == "seq":
        return alt_of(seq_of(deriv(c, r[1]), r[2]), deriv(c, r[2]) if nullable(r[1]) else NONE)
    if kind == "alt":
        return alt_of(deriv(c, r[1]), deriv(c, r[2]))
    return NONE


# The listings, as in specs/Listings.antt.
DIGIT = span("0", "9")
HEX = alt(DIGIT, span("a", "f"))
FOURTH = alt(seq(any_of("2468"), any_of("048")), seq(any_of("13579"), any_of("26")))
MONTH_DAY = alt(
    seq(alt(seq(char("0"), span("1", "9")), seq(char("1"), span("0", "2"))), char("-"),
        alt(seq(char("0"), span("1", "9")), seq(char("1"), DIGIT), seq(char("2"), span("0", "8")))),
    seq(alt(seq(char("0"), alt(char("1"), span("3", "9"))), seq(char("1"), span("0", "2"))), char("-"),
        alt(seq(char("2"), char("9")), seq(char("3"), char("0")))),
    seq(alt(seq(char("0"), any_of("13578")), seq(char("1"), any_of("02"))), char("-"), char("3"), char("1")))
LEAP_DAY = seq(
    alt(seq(span("1", "9"), DIGIT, alt(seq(char("0"), any_of("48")), FOURTH)), seq(FOURTH, char("0"), char("0"))),
    char("-"), char("0"), char("2"), char("-"), char("2"), char("9"))
CLOCK = seq(
    char("T"), alt(seq(span("0", "1"), DIGIT), seq(char("2"), span("0", "3"))), char(":"), span("0", "5"), DIGIT, char(":"), span("0", "5"), DIGIT,
    char("."), times(3, DIGIT))
ZONE = alt(char("Z"), seq(any_of("+-"), span("0", "1"), DIGIT, char(":"), span("0", "5"), DIGIT))
FORMS = {
    "date_time": seq(alt(seq(span("1", "9"), times(3, DIGIT), char("-"), MONTH_DAY), LEAP_DAY), CLOCK, ZONE),
    "id": seq(times(8, HEX), char("-"), times(4, HEX), char("-"), span("1", "5"), times(3, HEX), char("-"), alt(span("8", "9"), span("a", "b")),
              times(3, HEX), char("-"), times(12, HEX)),
}


def states_of(form):
    """Every derivative but none, with the first text that leads to it, and the steps between them."""
    states, words, steps = [form], [""], {}
    for number, state in enumerate(states):
        for c in range(256):
            after = deriv(c, state)
            if after == NONE:
                continue
            if after not in states:
                states.append(after)
                words.append(words[number] + chr(c))
            steps[number, c] = states.index(after)
    return states, words, steps


def classes_of(machines):
    """Bytes that every state of every form treats alike are one class, numbered from 1."""
    kinds, classes = {}, []
    for c in range(256):
        kind = tuple(steps.get((q, c), STOP) for states, _, steps in machines.values() for q in range(len(states)))
        classes.append(kinds.setdefault(kind, len(kinds) + 1))
    assert len(kinds) < WIDTH
    return classes


def table_of(machine, classes):
    states, _, steps = machine
    rows = []
    for q, state in enumerate(states):
        row = [1 if nullable(state) else STOP] + [STOP] * (WIDTH - 1)
        for c in range(256):
            row[classes[c]] = steps.get((q, c), STOP)
        rows += row
    return rows


def source(classes, tables):
    out = ["// Written by tools/forms.py from the published listings; compared with them where each form is proved, as in proofs/datetime_form."]
    for name, numbers, note in [("CLASS", classes, "The class of each byte.")] + [
            (name.upper().replace("_", ""), table, "A row for each state: what the end of the text, and each class of bytes, leads to.") for name, table in tables.items()]:
        rows = ["".join(f"\\x{n:02x}" for n in numbers[i:i + WIDTH]) for i in range(0, len(numbers), WIDTH)]
        out += ["", "// " + note, f'pub const {name}: [u8; {len(numbers)}] = *b"\\'] + [f"    {row}\\" for row in rows] + ['    ";']
    return "\n".join(out) + "\n"


def proofs(machines):
    out = ["-- Written by tools/forms.py: for each form a text that leads to each state of its table in src/tables.rt.",
           "use Prim.Native.Nat.{ℕ}", "use mathlib.Core.List.{List, [], ◌∷◌, map}", "use Rattle.octets.specs.Ascii.{ascii}", ""]
    for name, (_, words, _) in machines.items():
        out += [f"unfoldable pub {name}_words : List (List ℕ)", f"{name}_words =", "    map ascii", "    (" + " ∷\n    ".join(f'"{word}"' for word in words[1:]) + " ∷ [])", ""]
    return "\n".join(out[:-1]) + "\n"


def main():
    machines = {name: states_of(form) for name, form in FORMS.items()}
    classes = classes_of(machines)
    tables = {name: table_of(machine, classes) for name, machine in machines.items()}
    here = os.path.join(os.path.dirname(os.path.abspath(__file__)), "..", "crates", "form")
    written = {os.path.join(here, "src", "tables.rt"): source(classes, tables),
               os.path.join(here, "proofs", "Words.antt"): proofs(machines)}
    if "--check" in sys.argv:
        stale = [path for path, text in written.items() if not os.path.exists(path) or open(path, encoding="utf-8").read() != text]
        sys.exit("\n".join(f"{os.path.relpath(path)} is not what tools/forms.py writes" for path in stale) or 0)
    for path, text in written.items():
        with open(path, "w", encoding="utf-8") as file:
            file.write(text)


main()
