#!/usr/bin/env python3
"""Brings the names of this repository's own definitions, lemmas and record fields to today's spelling: words in snake case.

usage: tools/port_names.py [--list]      at the top, right after port.py; --list prints old and new names and changes nothing

A name keeps its spelling where a file has it from the kit, where Rattle made it (goals, steps, contracts), and in Rust.
Types keep their capitals; `name-of-two` and `nameOfTwo` become `name_of_two`.
"""
import collections
import os
import re
import subprocess
import sys

ROOT = os.path.join(os.path.dirname(os.path.dirname(os.path.abspath(__file__))), "crates")
IDENT = re.compile(r"[A-Za-zα-ωΑ-Ω∀-⋿₀-₉⁰-⁹⃐-⃿◌≡≢≤≠ᵉ𝓁-𝔃+*/%^&|<>=!_'\-0-9ℕ→×⊎∷⊛∙$∵¬⊤⊥]+")
MADE = re.compile(r"^(returns|.*-requires(-\d+)?$|loop-|invariant-|decreases-|Need-|if-|in-|in_|enum-told|match)")
# two names that would fall together, or meet a parameter's or a word's name: the second form stands for the first
SPECIAL = {}


def snake(name):
    if name[0].isupper():
        return name.replace("-", "_")
    name = name.replace("getD", "get_or")
    name = re.sub(r"(?<=[a-z0-9'])([A-Z])(?=[a-z0-9]|$|-|_)", lambda m: "_" + m.group(1).lower(), name)
    name = re.sub(r"(?<=[A-Za-z0-9'])([A-Z])", lambda m: "_" + m.group(1).lower(), name)
    return name.replace("-", "_").replace("′", "'")


def files():
    for crate in sorted(os.listdir(ROOT)):
        for part in ("src", "specs", "proofs"):
            for folder, dirs, names in os.walk(os.path.join(ROOT, crate, part)):
                dirs.sort()
                for n in sorted(names):
                    if n.endswith((".rt", ".antt")):
                        yield os.path.join(folder, n)


HEAD = re.compile(r"^( *)((?:(?:unfoldable|abbrev|pub|data|record)\s+)*)([^\s(){}\[\];,.]+)((?:\s+[({].*)?)\s+:(?:\s|$)")
USE = re.compile(r"^\s*(?:ghost )?(?:pub )?use ([^\s{;]+?)(?:\.\{(.*?)\})?(?:\s+as\s+(\S+?))?;?\s*$")


def is_proof_of(path):
    """a file of the proof of a function, in which goals stand"""
    return os.path.basename(path) in ("Proof.antt", "Answers.antt", "Invariants.antt")


def own_module(module):
    """whether a module is one that this repository writes (not the kit's, not what Rattle makes)"""
    parts = module.split(".")
    if parts[0] != "Rattle" or len(parts) < 4 or not os.path.isdir(os.path.join(ROOT, parts[1])):
        return False
    return os.path.isfile(os.path.join(ROOT, parts[1], *parts[2:]) + ".antt")


def gather(texts):
    tops, fields = set(), set()
    for path, text in texts.items():
        if not path.endswith(".antt"):
            continue
        record = False
        for line in text.splitlines():
            m = HEAD.match(line)
            if re.match(r"^\s*(pub )?record\b.*where", line) or re.match(r"^\s*record\b", line):
                record = True
            elif line and not line.startswith("  "):
                record = False
            if not m or m.group(3) in ("use", "module", "let", "λ", "--", "where", "open"):
                continue
            if is_proof_of(path) and (re.search(r":\s+tie\.", line) or re.search(r":\s+goal\.", line)):
                continue
            tops.add(m.group(3))
            if record and m.group(1):
                fields.add(m.group(3))
    return tops, fields


def names_of(tops):
    """the new name of each that changes; where a definition and a lemma would fall together, the lemma ends in _lem"""
    wanted, groups = {}, collections.defaultdict(set)
    for n in sorted(tops):
        if re.match(r"^[A-Za-z][A-Za-z0-9_'′\-]*$", n):
            groups[SPECIAL.get(n, snake(n))].add(n)
    for s, ns in groups.items():
        lead = sorted(ns, key=lambda n: (not re.search(r"[a-z0-9][A-Z]", n), "-" in n, n))[0]
        for n in ns:
            new = s if n == lead else s + "_lem"
            if new != n:
                wanted[n] = new
    for n, new in wanted.items():
        if sum(1 for v in wanted.values() if v == new) > 1 or (new in tops and new not in wanted):
            print("names fall together:", n, new, file=sys.stderr)
    return wanted


def main(argv):
    texts = {}
    for p in files():
        with open(p, encoding="utf-8") as f:
            texts[p] = f.read()
    tops, fields = gather(texts)
    wanted = names_of(tops)
    if "--list" in argv:
        for n, s in sorted(wanted.items()):
            print(n, s)
        # parameters of Rust functions whose clauses cite a renamed word
        for p, text in texts.items():
            if p.endswith(".rt"):
                for m in re.finditer(r"fn (\w+)[^{]*?\(([^{]*?)\)(.*?)\n\{", text, re.S):
                    params = set(re.findall(r"(\w+):", m.group(2)))
                    for n in set(IDENT.findall(m.group(3))):
                        if n in wanted and wanted[n] in params:
                            print("PARAM", p[len(ROOT) + 1:], m.group(1), n, wanted[n])
        # words of the same spelling already in a file
        for p, text in texts.items():
            if p.endswith(".antt"):
                words = set(IDENT.findall(re.sub(r"--.*", "", text)))
                for n in words:
                    if n in wanted and wanted[n] in words and wanted[n] not in tops:
                        print("WORD", p[len(ROOT) + 1:], n, wanted[n])
        print(len(wanted), "names", len(fields), "fields")
        return 0
    changed = 0
    for p, text in texts.items():
        kit, aliases = set(), set()
        if p.endswith(".rt"):
            kit |= {n for n in wanted if re.match(r"^[a-z0-9_]+$", n)}
        for line in text.splitlines():
            m = USE.match(line)
            if m:
                if m.group(2) and not own_module(m.group(1)):
                    kit |= {w.strip().split(" as ")[-1] for w in m.group(2).split(",")}
                if m.group(3) and own_module(m.group(1)):
                    aliases.add(m.group(3))
        out = []
        for line in text.split("\n"):
            code, comment = line, ""
            if p.endswith(".antt"):
                at = re.search(r"(^|\s)--(\s|$)", line)
            else:
                at = re.search(r"//", line)
            if at and '"' not in line[: at.start()]:
                code, comment = line[: at.start()], line[at.start():]
            out.append(rename(code, wanted, fields, kit, aliases, USE.match(line)) + remark(comment, wanted))
        new = "\n".join(out)
        if new != text:
            with open(p, "w", encoding="utf-8") as f:
                f.write(new)
            changed += 1
    for crate in sorted(os.listdir(ROOT)):
        subprocess.run(["rt", "fmt"], cwd=os.path.join(ROOT, crate), stdout=subprocess.DEVNULL)
    print(f"{len(wanted)} names, {changed} files changed")
    return 0


def remark(comment, wanted):
    def one(m):
        return wanted.get(m.group(0), m.group(0)) if re.search(r"[a-z][A-Z]", m.group(0)) else m.group(0)

    comment = re.sub(r"[A-Za-z][A-Za-z0-9_']*(?<!-)(?![\w-])", one, comment)
    return re.sub(r"`([^`]*)`", lambda m: "`" + re.sub(r"[A-Za-z][A-Za-z0-9_'\-]*", lambda k: wanted.get(k.group(0), k.group(0)), m.group(1)) + "`", comment)


def rename(code, wanted, fields, kit, aliases, use):
    if use:
        if not use.group(2) or not own_module(use.group(1)):
            return code
        start = code.index("{")
        return code[:start] + re.sub(r"[A-Za-z][A-Za-z0-9_'′\-]*", lambda m: wanted.get(m.group(0), m.group(0)), code[start:])
    pieces = re.split(r'("(?:[^"\\]|\\.)*")', code)
    for i in range(0, len(pieces), 2):
        pieces[i] = re.sub(r"(?<![A-Za-z0-9_'′\-◌])([A-Za-z][A-Za-z0-9_'′\-]*)(?![◌])", lambda m: one(m, pieces[i], wanted, fields, kit, aliases), pieces[i])
    return "".join(pieces)


def one(m, text, wanted, fields, kit, aliases):
    n = m.group(1)
    if n not in wanted:
        return n
    before = text[: m.start()]
    if before.endswith("."):
        chain = re.search(r"([^\s(){}\[\];,]*)\.$", before)
        head = chain.group(1) if chain else ""
        if head in aliases or n in fields:
            return wanted[n]
        return n
    if n in kit:
        return n
    return wanted[n]


if __name__ == "__main__":
    raise SystemExit(main(sys.argv[1:]))
