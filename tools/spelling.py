#!/usr/bin/env python3
"""Brings the repository's own definitions and lemmas to snake case, after the toolchain's port script has run.

usage: python3 tools/spelling.py [--dry]        at the top of the repository

A definition, lemma, constructor or field in crates/*/specs and crates/*/proofs whose name is in camel case (answerAt) or has dashes
(good-number) gets underscores (answer_at, good_number). Types and facts keep their capitals, and a dash beside a fact's name stays
(MakesMove-unique). Names of Rattle code, of its generated proof goals and of the library stay as they are. A name that would then be
that of a function in the same crate's src/ gets `_lem` behind it, unless CHOSEN names it. The script stops, with nothing written, if two names of one file fall together.
"""
import os
import re
import sys

# Separators of antt's names, as far as this repository uses them: a name is a longest run of other characters.
SPLIT = re.compile(r"([\s(){}\[\],;.`\"«»]+)")
DEFINED = re.compile(
    r"^\s*(?:(?:abbrev|unfoldable|pub|data|record|private)\s+)*((?:[^\s:(){}\[\]=,;.λ→×]+\s+)*?[^\s:(){}\[\]=,;.λ→×]+)"
    r"\s+(?:\([^()]*(?:\([^()]*\)[^()]*)*\)\s*|\{[^{}]*\}\s*)*:(?=\s)"
)
WORDS = {"abbrev", "unfoldable", "pub", "data", "record", "private", "let", "in", "module", "where", "elim", "as", "use", "open"}
# Where the rule would let two names fall together, or a definition be named as the function that it speaks of.
CHOSEN = {
    "all-in-turn": "all_in_turn_holds",
    "bodyLength": "body_length_of",
    "body-length": "body_length_is",
    "carriedBit": "bit_carried",
    "eventOf": "recorded_event",
    "head-found": "head_found_here",
    "head_of": "head_of_file",
    "in-log": "same_in_log",
    "in-schedule": "same_in_schedule",
    "in_range": "is_in_range",
    "in-range": "in_range",
    "in-turn": "each_in_turn",
    "isClash": "is_a_clash",
    "number-2": "number_of_2",
    "number-4": "number_of_4",
    "readBegan": "read_began_bytes",
    "readEnded": "read_ended_bytes",
    "writeBegan": "write_began_bytes",
    "writeEnded": "write_ended_bytes",
    "read-open": "read_open_is",
    "write-open": "write_open_is",
    "refusedHere": "answer_refused",
    "state_of": "state_of_words",
    "words_of": "words_of_state",
    "turnAt": "in_turn_at",
    "turn-of": "turn_from",
    "wouldWrite": "would_write_row",
    "write-number": "write_number_is",
}
# The same, in one file alone.
CHOSEN_IN = {"crates/judge/proofs/Taking.antt": {"ends_read": "read_ends"}}
OUTSIDE = re.compile(r"use\s+((?:Prim|mathlib|lib|native|borrow|denote|logic|Rattle\.std|Rattle\.core)[\w.'-]*)\.\{([^}]*)\}")


def texts(root, own):
    """The files of specs/ and the lemma files of proofs/ (own), or all files that may cite their names."""
    for crate in sorted(os.listdir(os.path.join(root, "crates"))):
        top = os.path.join(root, "crates", crate)
        for part in ("specs", "proofs", "src"):
            for folder, dirs, files in os.walk(os.path.join(top, part)):
                dirs.sort()
                inner = os.path.relpath(folder, os.path.join(top, part)) != "."
                for name in sorted(files):
                    path = os.path.join(folder, name)
                    if own and (part == "src" or not name.endswith(".antt") or (part == "proofs" and inner)):
                        continue
                    if name.endswith((".antt", ".rt")):
                        yield crate, path


def code(line):
    """A line cut at its comment."""
    at = line.find("--")
    return (line, "") if at < 0 else (line[:at], line[at:])


def snake(name):
    """The name in the new spelling."""
    parts = re.split(r"(-)", name)
    out = []
    for i, part in enumerate(parts):
        if part == "-":
            before, after = parts[i - 1], parts[i + 1]
            plain = bool(re.match(r"^[a-z0-9][\w']*$", before)) and bool(re.match(r"^[a-z0-9]", after) or re.match(r"^P\d+$", after))
            out.append("_" if plain else "-")
        elif re.match(r"^[a-z]", part) and not re.search(r"_[A-Z]", part):
            out.append(re.sub(r"(?<=[a-z0-9])([A-Z])(?![0-9])", lambda m: "_" + m.group(1).lower(), part))
        else:
            out.append(part)
    return "".join(out)


def main(argv):
    root = "."
    names, outside, functions, locals_ = {}, set(), {}, set()
    for crate, path in texts(root, own=False):
        with open(path, encoding="utf-8") as f:
            text = f.read()
        for m in OUTSIDE.finditer(text):
            outside.update(w for w in re.split(r"[\s,]+", m.group(2)) if w)
        if path.endswith(".rt"):
            for m in re.finditer(r"\bfn (\w+)", text):
                functions.setdefault(crate, set()).add(m.group(1))
    for crate, path in texts(root, own=True):
        with open(path, encoding="utf-8") as f:
            for line in f:
                head, _ = code(line)
                m = DEFINED.match(head)
                if not m or re.match(r"^\s*let\s", head):
                    continue
                for word in m.group(1).split():
                    if word not in WORDS:
                        names.setdefault(word, set()).add(crate)
                        locals_.add(word)
    turn = {}
    for name, crates in sorted(names.items()):
        new = CHOSEN.get(name) or snake(name)
        if name not in CHOSEN and new != name and new in set().union(*(functions.get(c, set()) for c in crates)):
            new += "_lem"
        if new != name and name not in outside:
            turn[name] = new
    bad = 0
    back = {}
    for name in set(names) | outside:
        back.setdefault(turn.get(name, name), set()).add(name)
    twice = {new: olds for new, olds in back.items() if len(olds) > 1}
    for crate, path in texts(root, own=False):
        with open(path, encoding="utf-8") as f:
            here = set(SPLIT.split("\n".join(code(line)[0] for line in f)))
        mine = CHOSEN_IN.get(os.path.relpath(path, root), {})
        for new, olds in sorted(twice.items()):
            met = sorted(o for o in olds if o in here and mine.get(o, new) == new)
            if len(met) > 1:
                print("fall together:", path, new, met)
                bad += 1
    for name in sorted(turn):
        print(f"{name} -> {turn[name]}")
    if bad:
        print(f"spelling: {bad} names fall together; nothing was written")
        return 1
    if "--dry" in argv:
        return 0
    changed = 0
    for crate, path in texts(root, own=False):
        with open(path, encoding="utf-8") as f:
            text = f.read()
        rust = path.endswith(".rt")
        # In the proof of a function a name behind a dot is one that the check made, unless it is in camel case.
        goals = os.path.basename(path) == "Proof.antt"
        here = turn | CHOSEN_IN.get(os.path.relpath(path, root), {})
        lines, inside = [], 0
        for line in text.split("\n"):
            if rust:
                clause = bool(re.match(r"^\s*(ghost use|requires|ensures|ghost)\b", line)) or inside > 0
                if clause:
                    inside = max(0, inside + line.count("{") - line.count("}"))
                    line = turned(line, here)
            else:
                head, comment = code(line)
                comment = re.sub(r"`([^`]*)`", lambda m: "`" + turned(m.group(1), here) + "`", comment)
                line = turned(head, here, goals) + comment
            lines.append(line)
        new = "\n".join(lines)
        if new != text:
            with open(path, "w", encoding="utf-8") as f:
                f.write(new)
            changed += 1
    print(f"spelling: {len(turn)} names, {changed} files")
    return 0


def turned(text, turn, goals=False):
    path = re.match(r"^(\s*(?:ghost |pub )?use\s[^{]*)(\{.*)$", text)
    if path:
        return path.group(1) + turned(path.group(2), turn)
    if re.match(r"^\s*(?:ghost |pub )?use\s", text):
        return text
    words = SPLIT.split(text)
    return "".join(word if i > 0 and words[i - 1] == "." and goals and "-" in word else turn.get(word, word) for i, word in enumerate(words))


if __name__ == "__main__":
    raise SystemExit(main(sys.argv[1:]))
