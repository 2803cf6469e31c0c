#!/usr/bin/env python3
"""Brings this repository's own names in clauses, specs/ and proofs/ to the spelling of the Rattle it was ported to.

usage: python3 tools/spell_names.py [--list]     in the repository, after port.py; --list only prints the names

Types, facts and modules stay in upper camel case. Every other name becomes snake case. A dash stays in a lemma's name
only where it joins two names that the lemma's statement has; before and after plain words it becomes `_`. Names that
Rattle makes (goals, generated fields) and names of Rust code keep their spelling, and so do strings.
"""

import glob
import re
import sys

TOKEN = re.compile(r"[^\W\d][\w'·+-]*")
HEAD = re.compile(r"^(\s*)(?:(?:pub|abbrev|unfoldable)\s+)*(?:(record|data|ruleset|mutual|module)\b\s*)?([^\s:({]+)?(.*)$")
# Words for an operator or a way of reasoning, which stand after a dash as a name does.
WORDS = {"append", "cong"}
# Definitions that mirror a Rust function, by that function's name; and facts, which are spelled as types.
GIVEN = {
    "toInt32": "to_int_32",
    "toUint32": "to_uint_32",
    "bitwiseAND": "bitwise_and",
    "bitwiseOR": "bitwise_or",
    "bitwiseXOR": "bitwise_xor",
    "bitwiseNOT": "bitwise_not",
    "Safe-made": "SafeMade",
    "Made-safe": "MadeSafe",
    # these would fall together with another name: a lemma with its function gets `_lem`
    "code-point": "code_point_escape",
    "printed-at": "printed_at_lem",
    "printed-arguments": "printed_arguments_lem",
    "printed-further": "printed_further_lem",
    "printed-parts": "printed_parts_lem",
    "before-e": "before_e_lem",
    "past-space": "past_space_lem",
    "single-escape": "single_escape_lem",
}
# The same, where the lemma alone has the spelling already.
LEMMAS = {
    "crates/script/proofs/Spaces.antt": {"to_space": "to_space_lem"},
    "crates/script/proofs/words/Words/word/Answers.antt": {"to_space": "to_space_lem"},
    "crates/tree/proofs/Naming.antt": {"kind_fits": "kind_fits_lem"},
    "crates/tree/proofs/Adding.antt": {"kind_fits": "kind_fits_lem"},
}


def snake(name):
    return re.sub(r"(?<=[a-z0-9])(?=[A-Z])", "_", name).lower() if re.match(r"[a-z]+[A-Z]", name) else name


def sources():
    return sorted(p for p in glob.glob("crates/**/*", recursive=True) if p.endswith((".antt", ".rt")) and "/out/" not in p)


def statements(text):
    """Each declared name of an .antt file: its kind, its name and its statement."""
    lines = text.split("\n")
    block, depth = None, -1
    for i, line in enumerate(lines):
        if not line.strip() or line.lstrip().startswith(("--", "use ", "let ", "pub mod ", "mod ")):
            continue
        m = HEAD.match(line)
        indent, word, name, rest = len(m.group(1)), m.group(2), m.group(3), m.group(4)
        if block and indent <= depth:
            block = None
        if word in ("record", "data"):
            block, depth = word, indent
        if not name or name in ("where", "=") or not re.match(r"[^\W\d]", name):
            continue
        if word is None and not re.match(r"\s*(\([^=]*\)|\{[^=]*\})?\s*:(\s|$)", rest) and not re.match(r"( [\w'-]+)+ :\s", rest):
            continue
        statement = [rest]
        for more in lines[i + 1 :]:
            if len(more) - len(more.lstrip()) <= indent or " = " in more:
                break
            statement.append(more)
        kind = "member" if block and indent > depth else (word or "definition")
        yield kind, name, " ".join(statement)
        for other in re.match(r"(( [\w'-]+)*) :\s", rest).group(1).split() if re.match(r"( [\w'-]+)+ :\s", rest) else []:
            yield kind, other, " ".join(statement)


def respelled(kind, name, statement):
    if name in GIVEN:
        return GIVEN[name]
    if name[0].isupper():
        return name
    if kind == "member":
        return snake(name.replace("-", "_")) if "-" in name or name != name.lower() else name
    known = {snake(t) for t in re.findall(r"[\w']+", statement)} | WORDS
    parts = [snake(p) for p in name.split("-")]
    made = parts[0]
    for before, after in zip(parts, parts[1:]):
        made += ("-" if before in known and after in known else "_") + after
    return made


def mapping(files):
    names, kept = {}, set()
    for path, text in files.items():
        if not path.endswith(".antt"):
            for alias in re.findall(r"\bas ([a-z]\w*[A-Z]\w*)", text):
                names[alias] = snake(alias)
            continue
        for line in re.findall(r"^use (?!Rattle\.(?:%s)\.)[^{]*\{([^}]*)\}" % "|".join(crates()), text, re.M):
            kept |= set(re.findall(r"[^\s,]+", line))
        for kind, name, statement in statements(text):
            if re.match(r"\s*:\s*goal\.", statement):
                kept.add(name)
            elif name not in names or "-" not in name or kind == "member":
                names[name] = respelled(kind, name, statement)
        for local in re.findall(r"(?<![\w.'-])[a-z]{2,}[A-Z]\w*(?![\w'-])", re.sub(r"(^|\s)--.*", "", text, flags=re.M)):
            names.setdefault(local, GIVEN.get(local, snake(local)))
    return {a: b for a, b in names.items() if a != b and a not in kept and not GENERATED.match(a)}


# Names that Rattle makes from the code: goals, steps and branches.
GENERATED = re.compile(r"(returns|loop|then|else|in|if|match|invariant|decreases|overflow|bounds|slice_bounds)-")


def crates():
    return [line.split(":")[0].strip() for line in open("crates.txt") if ":" in line and not line.startswith("#")]


def turned(path, text, names):
    out = []
    for line in text.split("\n"):
        if path.endswith(".rt"):
            pieces = re.split(r"""(b?"(?:[^"\\]|\\.)*"|//.*$)""", line)
            clause = re.match(r"\s*(ghost|requires|ensures)\b", line)
            dashed = bool(clause)
        else:
            pieces = re.split(r"""("(?:[^"\\]|\\.)*"|(?:^|(?<=\s))--.*$)""", line)
            dashed = True
        for k, piece in enumerate(pieces):
            if k % 2 and '"' in piece[:2]:
                continue
            comment = k % 2 == 1
            def one(m):
                t = m.group(0)
                if t in LEMMAS.get(path, {}) and not comment:
                    return LEMMAS[path][t]
                if t not in names or (comment and "-" in t) or ("-" in t and not dashed):
                    return t
                return names[t]
            pieces[k] = TOKEN.sub(one, piece)
        out.append("".join(pieces))
    return "\n".join(out)


def together(files, names):
    """Names that would fall together in a file that has both."""
    found = []
    for path, text in files.items():
        tokens = set(TOKEN.findall(text))
        made = {}
        for t in sorted(tokens):
            n = LEMMAS.get(path, {}).get(t) or names.get(t, t)
            if n in made and made[n] != t:
                found.append(f"{path}: {made[n]} and {t} would both be {n}")
            made[n] = t
    return found


def main():
    files = {p: open(p, encoding="utf-8").read() for p in sources()}
    names = mapping(files)
    if "--list" in sys.argv:
        for a, b in sorted(names.items()):
            print(a, "->", b)
        return
    for line in together(files, names):
        print("look:", line)
    for path, text in files.items():
        made = turned(path, text, names)
        if made != text:
            with open(path, "w", encoding="utf-8") as f:
                f.write(made)
    print(f"{len(names)} names respelled")


main()
