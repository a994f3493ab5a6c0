#!/usr/bin/env python3
"""Holds include/vaikshurd.h against the Rattle source of the exported calls.

Of each call: its name, what it answers, and its parameters, each with its name and kind, in their order; and the names and numbers of the
answers. A lent slice is a pointer and a length, `name` and `name_n`, to const where it is only read; a lent number is a pointer.

    tests/header.py                  fails with a line for each difference
    tests/header.py --archive FILE   holds the names against the symbols of a built library too
    tests/header.py --planted        plants differences, one at a time, and fails unless each is found
"""
import os
import re
import subprocess
import sys

ROOT = os.path.dirname(os.path.dirname(os.path.abspath(__file__)))
HEADER = os.path.join(ROOT, "include", "vaikshurd.h")
EXPORTS = os.path.join(ROOT, "crates", "vaikshurd", "src")
ANSWERS = os.path.join(ROOT, "crates", "rules", "src", "lib.rt")

NUMBERS = {"u8": "uint8_t", "u16": "uint16_t", "u32": "uint32_t", "u64": "uint64_t", "i64": "int64_t"}


class Wrong(Exception):
    """Something that neither side should hold, so that nothing is compared."""


def text_of(path):
    with open(path, encoding="utf-8") as file:
        return file.read()


def source():
    """All files of the crate: exports may stand in any of them."""
    names = sorted(name for name in os.listdir(EXPORTS) if name.endswith(".rt"))
    return "\n".join(text_of(os.path.join(EXPORTS, name)) for name in names)


# ---- the Rattle source ----


def in_c(name, kind):
    """The C parameters that a Rattle parameter becomes."""
    if kind == "&mut [u8]":
        return [f"uint8_t *{name}", f"size_t {name}_n"]
    if kind == "&[u8]":
        return [f"const uint8_t *{name}", f"size_t {name}_n"]
    if kind.startswith("&mut ") and kind[5:] in NUMBERS:
        return [f"{NUMBERS[kind[5:]]} *{name}"]
    if kind in NUMBERS:
        return [f"{NUMBERS[kind]} {name}"]
    raise Wrong(f"the parameter {name}: {kind} has no C kind")


def exported(rattle):
    """Each exported call as C would declare it: its name, and its answer and parameters."""
    rattle = re.sub(r"//[^\n]*", "", rattle)
    form = r'#\[unsafe\(no_mangle\)\]\s*(?:#\[[^\n]*\]\s*)*pub extern "C" fn (\w+)\(([^)]*)\)\s*(?:->\s*(\w+))?'
    calls = {}
    for name, parameters, answer in re.findall(form, rattle):
        pairs = [part.strip().split(":", 1) for part in parameters.split(",") if part.strip()]
        kinds = [in_c(pair[0].strip(), " ".join(pair[1].split())) for pair in pairs]
        if answer not in NUMBERS:
            raise Wrong(f"{name} answers {answer or 'nothing'}, which has no C kind")
        calls[name] = (NUMBERS[answer], [parameter for kind in kinds for parameter in kind])
    if len(calls) != rattle.count("no_mangle"):
        raise Wrong("an export of the Rattle source was not understood")
    return calls


def shouted(name):
    return "VAIK_" + re.sub(r"(?<!^)([A-Z])", r"_\1", name).upper()


def numbered(rattle):
    """The names of the answers with their numbers: an answer's number is its place in the enum, or the one that is written behind it."""
    body = re.search(r"pub enum Answer \{\n(.*?)\n\}", rattle, re.S)
    if body is None or "self as u16" not in rattle:
        raise Wrong("the Rattle source has no answers that are numbered by their places")
    numbers, next_number = {}, 0
    for name, number in re.findall(r"^ +(\w+)(?: = (\d+))?,", body.group(1), re.M):
        next_number = int(number) if number else next_number
        numbers[shouted(name)] = next_number
        next_number += 1
    return numbers


# ---- the header ----


def without_comments(header):
    return re.sub(r"/\*.*?\*/", " ", header, flags=re.S)


def declared(header):
    """Each call that the header declares, in the same form."""
    plain = without_comments(header)
    # what stands in braces is the inline readers' own, but for the braces of extern "C"
    plain = re.sub(r'extern "C" \{', "", plain)
    plain = re.sub(r"\{[^{}]*\}", "{}", plain)
    calls = {}
    for answer, name, parameters in re.findall(r"^(?!static)([\w ]+?)\b(vaik_\w+)\(([^)]*)\);", plain, re.M):
        if name in calls:
            raise Wrong(f"{name} is declared twice")
        parts = [] if parameters.strip() == "void" else [tidy(part) for part in parameters.split(",")]
        calls[name] = (tidy(answer), parts)
    return calls


def tidy(part):
    return re.sub(r"\s*\*\s*", " *", " ".join(part.split())).strip()


def named(header):
    body = re.search(r"enum vaik_answer \{(.*?)\}", without_comments(header), re.S)
    if body is None:
        raise Wrong("the header has no enum vaik_answer")
    return {name: int(number) for name, number in re.findall(r"(VAIK_\w+)\s*=\s*(\d+)", body.group(1))}


# ---- the comparison ----


def shown(call):
    return f"{call[0]} ({', '.join(call[1])})"


def differences(header, exports, answers):
    try:
        wanted, found = exported(exports), declared(header)
        numbers, names = numbered(answers), named(header)
    except Wrong as wrong:
        return [str(wrong)]
    lines = [f"{name} is exported and not declared" for name in sorted(wanted.keys() - found.keys())]
    lines += [f"{name} is declared and not exported" for name in sorted(found.keys() - wanted.keys())]
    for name in sorted(wanted.keys() & found.keys()):
        if wanted[name] != found[name]:
            lines.append(f"{name} is declared as\n    {shown(found[name])}\n  and exported as\n    {shown(wanted[name])}")
    for name in sorted(numbers.keys() | names.keys()):
        if numbers.get(name) != names.get(name):
            lines.append(f"{name} is {names.get(name)} in the header and {numbers.get(name)} in the Rattle source")
    return lines


def symbols(archive):
    listed = subprocess.run(["nm", "--defined-only", "--extern-only", archive], check=True, capture_output=True, text=True)
    return {line.split()[2] for line in listed.stdout.splitlines() if len(line.split()) == 3}


def against_archive(header, archive):
    wanted, found = set(declared(header)), symbols(archive)
    lines = [f"{name} is declared and not in {archive}" for name in sorted(wanted - found)]
    return lines + [f"{name} is in {archive} and not declared" for name in sorted(found - wanted)]


# ---- planted differences ----

# Where it is planted, what stands there, and what is put there instead.
PLANTED = [
    ("header", "uint64_t vaik_abort(", "uint64_t vaik_cancel(", "a call under another name"),
    ("header", "uint64_t vaik_head_length(void);", "", "a call that is missing"),
    ("header", "uint64_t vaik_head_length(void);", "uint64_t vaik_head_length(void);\nuint32_t vaik_more(void);", "a call too many"),
    ("header", "uint64_t vaik_head_length(void);", "uint32_t vaik_head_length(void);", "another answer"),
    ("header", "uint64_t vaik_head_length(void);", "uint64_t vaik_head_length(uint32_t which);", "a parameter too many"),
    ("header", "const uint8_t *code,\n                    size_t code_n);", "const uint8_t *code);", "a slice without its length"),
    ("header", "size_t ended_n, const uint8_t *name", "uint32_t ended_n, const uint8_t *name", "a length of another kind"),
    ("header", "const uint8_t *ended,\n                   size_t ended_n, const uint8_t *name", "uint8_t *ended,\n                   "
     "size_t ended_n, const uint8_t *name", "a slice lent to be written that is only read"),
    ("header", "uint8_t *list, size_t list_n", "const uint8_t *list, size_t list_n", "a slice lent to be read that is written"),
    ("header", "const uint8_t *payer, size_t payer_n,\n                      const uint8_t *payee, size_t payee_n",
     "const uint8_t *payee, size_t payee_n,\n                      const uint8_t *payer, size_t payer_n", "payer and payee exchanged"),
    ("header", "const uint8_t *sender, size_t sender_n, const uint8_t *id, size_t id_n,\n                     const uint8_t *fulfilment",
     "const uint8_t *id, size_t id_n, const uint8_t *sender, size_t sender_n,\n                     const uint8_t *fulfilment",
     "sender and id exchanged"),
    ("header", "uint64_t *units, uint16_t *remainder", "uint64_t *units, uint32_t *remainder", "a lent number of another width"),
    ("header", "uint64_t units, uint16_t remainder", "int64_t units, uint16_t remainder", "a number with another sign"),
    ("header", "int64_t *instant", "int64_t instant", "a lent number handed over by value"),
    ("header", "VAIK_NO_MATCH = 14", "VAIK_NO_MATCH = 13", "another number for an answer"),
    ("header", "    VAIK_RESEND = 24", "    VAIK_DUPLICATE = 24", "an answer under another name"),
    ("header", "    VAIK_NAME_HELD = 17,\n", "", "an answer that is missing"),
    ("exports", "extern \"C\" fn vaik_lookup(", "extern \"C\" fn vaik_find(", "an export under another name"),
    ("exports", "instant: &mut i64", "instant: &mut u64", "an export with a number of another sign"),
    ("exports", "list: &mut [u8]", "list: &mut [u32]", "an export with a slice of something else"),
    ("exports", "#[unsafe(no_mangle)]\npub extern \"C\" fn vaik_code(", "pub fn vaik_code(", "an export taken back"),
    ("answers", "    ClockGoesBack,\n    ListTooShort,", "    ListTooShort,\n    ClockGoesBack,", "a number changed in the source"),
]


def planted():
    texts = {"header": text_of(HEADER), "exports": source(), "answers": text_of(ANSWERS)}
    passed = failed = 0
    for where, stands, instead, name in PLANTED:
        if stands not in texts[where]:
            found = "there is no place to plant it in"
        else:
            changed = dict(texts, **{where: texts[where].replace(stands, instead, 1)})
            found = "" if differences(changed["header"], changed["exports"], changed["answers"]) else "not found"
        passed, failed = (passed, failed + 1) if found else (passed + 1, failed)
        print(f"FAILED planted: {name}: {found}" if found else f"ok planted: {name}")
    print(f"{passed} passed, {failed} failed")
    return failed == 0


def main(words):
    if words == ["--planted"]:
        return planted()
    if words and (words[0] != "--archive" or len(words) != 2):
        print(__doc__, file=sys.stderr)
        return False
    header = text_of(HEADER)
    lines = differences(header, source(), text_of(ANSWERS))
    if words:
        lines += against_archive(header, words[1])
    for line in lines:
        print(line)
    return not lines


if __name__ == "__main__":
    sys.exit(0 if main(sys.argv[1:]) else 1)
