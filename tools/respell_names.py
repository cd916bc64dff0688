#!/usr/bin/env python3
"""Respells the names that this repository's specs/ and proofs/ declare: words in snake case, a prime as an apostrophe.

    respell_names.py [--check]      at the top of the repository; --check writes nothing and lists what would change

`planOf` becomes `plan_of`, `zero-2` becomes `zero_2`. Types, facts and modules, which begin with a capital letter and have no dash, keep their
spelling, as does what Rattle names itself in a function's proof. What turns:

  .antt     declared names wherever they are cited, fields behind a dot; in comments names in camel case, and names that the file declares
  .rt       names in camel case, outside strings; names with a dash in `ghost use` items
  .edit     as the file that the edit names
  .md       names in camel case in code spans

A name that would meet another one is shown on a line that begins 'meets:', to be looked at by hand.
"""
import collections
import os
import re
import sys

NAME = r"[^\s(){}.;,@\"«»\[\]|`λ]+"
DECLARED = re.compile(rf"(?m)^(?: *(?:(?:abbrev|unfoldable|record|data) |pub (?!use|mod))+(?:pub )?)?({NAME})(?= *(?:\{{|\(|:(?!:)))")
FIELD = re.compile(rf"(?m)^ +(?:pub )?({NAME}) :")
COMMENT = re.compile(r"--(?=\s|-|$)[^\n]*")
# A goal, an invariant or a measure that Rattle names, or what closes a proof.
MADE = re.compile(rf"(?m)^(?:(?:abbrev|pub) )*({NAME}) : tie\.")


# Names with a dash that are a lemma in the one file and a constructor or a field in the other.
SPLIT = {"first-belt", "next-belt", "first-rule", "next-rule", "first-literal", "next-literal"}
SPLIT_LEMMAS = "ChainLaws"
# Names that have the new spelling already, and would meet a definition: in these files they turn, too.
MORE = {
    "crates/archive/proofs/WriteBelts.antt": {"record_of": "junction_record_of"},
    "crates/plan/proofs/NamedPlaces.antt": {"code_by": "code_by_lem"},
    "crates/route/proofs/RulesLock.antt": {"agrees_at": "agrees_at_lem"},
    "crates/route/proofs/RulesSettle.antt": {"agrees_at": "agrees_at_lem"},
    "crates/route/proofs/LcspFeasible.antt": {"agrees_at": "agrees_at_lem"},
}


def snake(name):
    """The name in snake case, if it is not that of a type, a fact or a module."""
    name = name.replace("′", "'")
    if name[0].isupper() and "-" not in name:
        return name
    words = re.sub(r"(?<=[a-z0-9])([A-Z])", r"_\1", name)
    words = words.replace("-", "_")
    return words.lower() if re.search(r"[a-z]", words) else words


def files(top, ends):
    for folder, inner, names in os.walk(top):
        inner[:] = sorted(d for d in inner if d not in ("out", "target", ".git"))
        for name in sorted(names):
            if name.endswith(ends):
                yield os.path.join(folder, name)


def read(path):
    with open(path, encoding="utf-8") as file:
        return file.read()


def is_function_proof(path):
    return "/proofs/" in path and path.endswith(("/Proof.antt", "/Answers.antt", "/Invariants.antt"))


def is_name(name):
    """A name in camel case or with a dash, and not an operator."""
    return re.fullmatch(r"[A-Za-z][\w'′₀-₉ℕ≤≡∷-]*", name) and snake(name) != name


def declared():
    """The names that turn everywhere, the fields that do, and by file those that turn in it alone."""
    names, fields, local = {}, {}, collections.defaultdict(dict)
    for path in files("crates", ".antt"):
        text = COMMENT.sub("", read(path))
        made = set(MADE.findall(text))
        for name in DECLARED.findall(text):
            if is_name(name) and name not in made:
                (local[path] if is_function_proof(path) else names)[name] = snake(name)
        for name in FIELD.findall(text):
            if is_name(name):
                (local[path] if is_function_proof(path) else fields)[name] = snake(name)
    # A lemma that would have its function's name gets _lem.
    of_functions = {snake(n) for t in (names, fields) for n in t if "-" not in n}
    for path in files("crates", ".antt"):
        words = set(re.findall(NAME, COMMENT.sub("", read(path)))) if not is_function_proof(path) else set()
        of_functions |= {s for t in (names, fields) for n, s in t.items() if "-" in n and n in words and s in words}
    for table in names, fields:
        for name in table:
            if "-" in name and table[name] in of_functions and name not in SPLIT and name not in ("is-belt", "is-named"):
                table[name] += "_lem"
    return names, fields, local


def turn_code(text, names, fields):
    """The code of an .antt file."""

    def one(m):
        word, before = m[0], text[: m.start()]
        if before.endswith("."):
            head = re.search(r"([^\s(){}.;,@\[\]]+)\.$", before)
            of_module = head and (head[1][0].isupper() or head[1] == "lemmas")
            new = (names if of_module else fields).get(word, word)
            return new if of_module or not new.endswith("_lem") else new[: -len("_lem")]
        return names.get(word) or fields.get(word) or word

    return re.sub(NAME, one, text)


def turn_comment(text, names, here):
    def one(m):
        word = m[0].strip(":")
        if word in names and ("-" not in word or word in here):
            return m[0].replace(word, names[word])
        return m[0]

    return re.sub(NAME.replace("|`", "|`'’"), one, text)


def turn_antt(text, names, fields, here):
    out, at = [], 0
    for m in COMMENT.finditer(text):
        out += [turn_code(text[at : m.start()], names, fields), turn_comment(m[0], {**fields, **names}, here)]
        at = m.end()
    return "".join(out) + turn_code(text[at:], names, fields)


def turn_rt(text, names):
    camel = {n: s for n, s in names.items() if "-" not in n}
    plain = re.compile(r'b?"(?:\\.|[^"\\])*"|[A-Za-z_]\w*')
    text = plain.sub(lambda m: m[0] if '"' in m[0] else camel.get(m[0], m[0]), text)
    return re.sub(r"ghost use [^;]*;", lambda u: re.sub(NAME, lambda m: names.get(m[0], m[0]), u[0]), text)


def turn_edit(text, names, fields):
    target = re.search(r"(?m)^file: (\S+)", text)[1]
    lines = []
    for line in text.splitlines(keepends=True):
        head = re.match(r"(old|new): ?", line)
        if head:
            rest = line[head.end() :]
            line = head[0] + (turn_rt(rest, {**fields, **names}) if target.endswith(".rt") else turn_code(rest, names, fields))
        lines.append(line)
    return "".join(lines)


def turn_md(text, names):
    camel = {n: s for n, s in names.items() if "-" not in n}
    return re.sub(r"`[^`\n]+`", lambda span: re.sub(r"(?<![\w.])[A-Za-z_]\w*(?!\w)", lambda m: camel.get(m[0], m[0]), span[0]), text)


def meetings(path, old, names):
    """The names that the file has already under their new spelling."""
    words = set(re.findall(NAME, COMMENT.sub("", old)))
    return sorted(f"{n} as {names[n]}" for n in words if n in names and names[n] in words)


def main():
    write = "--check" not in sys.argv[1:]
    names, fields, local = declared()
    by_new = collections.defaultdict(set)
    for table in names, fields:
        for name, new in table.items():
            by_new[new].add(name)
    for new, olds in sorted(by_new.items()):
        if len(olds) > 1:
            print(f"meets: {', '.join(sorted(olds))} all become {new}")
    changed = 0
    for path in [*files("crates", (".antt", ".rt", ".edit")), *files("docs", ".md"), "README.md"]:
        old = read(path)
        mine = {**names, **local.get(path, {}), **MORE.get(path, {})}
        lemmas = path.endswith(SPLIT_LEMMAS + ".antt") or re.search(SPLIT_LEMMAS + r"\.\{[^}]*\b(?:first|next)-(?:belt|rule|literal)\b", old)
        mine.update({name: snake(name) + ("_lem" if lemmas else "") for name in SPLIT})
        if path.endswith(".antt"):
            here = set(DECLARED.findall(old)) | set(FIELD.findall(old))
            new = turn_antt(old, mine, {**fields, **local.get(path, {})}, here)
        elif path.endswith(".rt"):
            new = turn_rt(old, {**fields, **names})
        elif path.endswith(".edit"):
            new = turn_edit(old, names, fields)
        else:
            new = turn_md(old, {**fields, **names})
        for meeting in meetings(path, old, mine) if not path.endswith(".md") else []:
            print(f"meets: {path}: {meeting}")
        if new != old:
            changed += 1
            if write:
                with open(path, "w", encoding="utf-8") as file:
                    file.write(new)
    print(f"respell_names: {len(names)} names and {len(fields)} fields, {changed} files")


if __name__ == "__main__":
    main()
