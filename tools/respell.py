#!/usr/bin/env python3
"""Brings the repository's own definitions and lemmas to today's spelling, after port.py, and crate `log` to the name `event_log`.

usage: python3 tools/respell.py [--dry]     at the top of the repository, once, right after port.py

Words of specs/ and proofs/ that are no types are written in snake case: `levelOf` is `level_of`, the lemma `busy-begins` is `busy_begins`. A dash
stays beside a name with a capital, as in `AllBytes-append`. Names of src/, exported C names, strings, inputs and outputs are left. In comments
and in docs/ a name is turned only between backquotes.
"""
import collections
import os
import re
import sys

DECL = re.compile(r"^( *)((?:pub |abbrev |unfoldable |data |record |opaque )*)([^\s(){};:,@.]+)((?: [({][^:]*?:[^=]*?[)}])*) :(?: |$)")
WORD = r"[^\s(){}\[\];:,@.|«»\"`'·]"
TOKEN = re.compile(rf"(?<!{WORD})({WORD}+)('*)(?!{WORD})")


def snake(name):
    """levelOf → level_of, with-bit → with_bit; types keep their capitals and the dash beside them."""
    parts = name.split("-")
    out = parts[0] if parts[0][:1].isupper() else re.sub(r"(?<=[a-z0-9])([A-Z])", lambda m: "_" + m.group(1).lower(), parts[0])
    for before, part in zip(parts, parts[1:]):
        low = part if part[:1].isupper() else re.sub(r"(?<=[a-z0-9])([A-Z])", lambda m: "_" + m.group(1).lower(), part)
        out += ("-" if before[:1].isupper() or part[:1].isupper() else "_") + low
    return out


def texts(*ends):
    for root in ("crates", "docs", "host", "demo", "."):
        for folder, dirs, files in os.walk(root):
            dirs[:] = sorted(d for d in dirs if d not in ("out", ".git", "target", "data") and not (root == "."))
            for f in sorted(files):
                if f.endswith(ends):
                    yield os.path.join(folder, f)


def is_walk(path):
    """A proof of one function: proofs/MODULE/FUNCTION/Proof.antt."""
    return path.endswith("/Proof.antt")


def declared():
    names = collections.defaultdict(set)
    for p in texts(".antt"):
        for line in open(p, encoding="utf-8"):
            m = DECL.match(line)
            if m and (not is_walk(p) or m.group(3).endswith("-spec")):
                names[m.group(3)].add(p)
    return names


def code_and_comment(line, mark):
    i = line.find(mark)
    return (line, "") if i < 0 else (line[:i], line[i:])


def turned(text, names, walk):
    def one(m):
        word = m.group(1)
        if walk and m.start() and m.string[m.start() - 1] == "." and "-" in word:
            return m.group(0)
        return names.get(word, word) + m.group(2)

    return TOKEN.sub(one, text)


def in_quotes(text, names):
    return re.sub(r"`[^`\n]*`", lambda m: turned(m.group(0), names, False), text)


def rename_log():
    if os.path.isdir("crates/log"):
        os.rename("crates/log", "crates/event_log")
    for p in texts(".rt", ".antt", ".edit", ".md"):
        old = open(p, encoding="utf-8").read()
        new = old.replace("crates/log/", "crates/event_log/").replace("crate log", "crate event_log").replace("crate `log`", "crate `event_log`").replace("Rattle.log.", "Rattle.event_log.").replace("Rattle·log·", "Rattle·event_log·").replace("Rattle·log.", "Rattle·event_log.")
        if p.endswith((".rt", ".edit")):
            new = re.sub(r"(?<![\w:])log::", "event_log::", new)
        if new != old:
            open(p, "w", encoding="utf-8").write(new)
    old = open("crates.txt", encoding="utf-8").read()
    open("crates.txt", "w", encoding="utf-8").write(re.sub(r"(?m)(?<!\w)log(?!\w)(?=.*)", lambda m: "event_log" if not old[: m.start()].split("\n")[-1].startswith("#") else "log", old))


# A lemma that would have its definition's name gets `_lem`; a fact is spelled as a type.
OTHERS = {
    "address-byte": "address_byte_lem", "after-page": "after_page_lem", "answer-number": "answer_number_lem", "cycled-bytes": "cycled_bytes_lem",
    "decoded-by": "decoded_by_lem", "got-by": "got_by_lem", "in-range": "in_range_lem", "is_digit": "is_digit_lem",
    "linear-at": "linear_at_lem", "low-after": "low_after_lem", "low-at": "low_at_lem", "no-page": "no_page_lem", "none_below": "none_below_lem",
    "noneBelow": "NoneBelow", "on-bytes": "on_bytes_lem", "pointer-after": "pointer_after_lem", "read-class": "read_class_lem",
    "read-from": "read_from_lem", "refusal-at": "refusal_at_lem", "winner-at": "winner_at_lem", "with-bit": "with_bit_lem",
    "with-bytes": "with_bytes_lem", "with-current": "with_current_lem",
}
# Of these the snake form is a name of src/ too: they are turned in .antt files alone.
IN_ANTT = {"is_digit", "none_below"}


def main(dry):
    names = declared()
    change = {n: OTHERS.get(n, snake(n)) for n in names if OTHERS.get(n, snake(n)) != n}
    meets = collections.defaultdict(list)
    for n in names:
        meets[change.get(n, n)].append(n)
    for new, olds in sorted(meets.items()):
        if len(olds) > 1:
            print("meet:", new, {o: sorted(names[o])[:3] for o in olds})
    if dry:
        used = collections.Counter()
        for p in texts(".antt", ".rt"):
            for m in TOKEN.finditer(open(p, encoding="utf-8").read()):
                used[m.group(1)] += 1
        for old, new in sorted(change.items()):
            if used[new]:
                print("used:", old, new, used[new])
        return
    rename_log()
    for p in texts(".antt", ".rt", ".edit", ".md"):
        old = open(p, encoding="utf-8").read()
        # in crate memory the lemma meets the definition `image_size`; elsewhere it is a row of a table of refusals
        change["image-size"] = "image_size_lem" if p.startswith("crates/memory/") else "image_size"
        here = change if p.endswith(".antt") else {n: to for n, to in change.items() if n not in IN_ANTT}
        if p.endswith(".md"):
            new = in_quotes(old, here)
        else:
            lines = []
            for line in old.split("\n"):
                code, comment = code_and_comment(line, "//" if p.endswith(".rt") else "-- ") if not p.endswith(".edit") else (line, "")
                lines.append(turned(code, here, is_walk(p)) + in_quotes(comment, here))
            new = "\n".join(lines)
        if new != old:
            open(p, "w", encoding="utf-8").write(new)


main("--dry" in sys.argv)
