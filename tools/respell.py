#!/usr/bin/env python3
"""Gives the repository's own definitions and lemmas the spelling of today's Rattle: words in snake case.

usage: tools/respell.py        at the top, once, behind /opt/rattle/port/port.py

Every name of specs/ and proofs/ that begins in lower case and has a capital inside, as `octetsOf`, becomes
`octets_of`, in .antt, .rt and .edit files and in the pages. Types, modules and facts keep their capital. Where
a lemma has that new name already, it gets `_lem` behind it, in the files that declare or import it. Functions,
strings and exported names have no such letters, so that no code is touched. It stops where two names fall together.
The crate `log` becomes `call_log`, since Rattle has a library of its name.
"""
import collections
import os
import re
import sys

SIGNATURE = re.compile(r"^\s*(?:(?:pattern|unfoldable|abbrev|axiom|pub) )*([^\s(){}\[\];,:]+)(?: \{[^}]*\})? : ")
NAME = r"[^\s(){}\[\];,.`'\"|:*]"


def files(*endings):
    for top in ("crates", "docs", "README.md", "desk/README.md", "peer/README.md"):
        if os.path.isfile(top):
            yield top
        for folder, dirs, names in os.walk(top):
            dirs[:] = sorted(d for d in dirs if d != "out")
            for name in sorted(names):
                if name.endswith(endings):
                    yield os.path.join(folder, name)


def read(path):
    with open(path, encoding="utf-8") as it:
        return it.read()


def snake(name):
    def part(it):
        if not re.match(r"[a-z_+]", it):
            return it
        return re.sub(r"(?<=[a-z0-9])[A-Z]", lambda m: "_" + m[0].lower(), it)

    return "-".join(part(it) for it in name.split("-"))


def rename(crate, to):
    os.rename(f"crates/{crate}", f"crates/{to}")
    for path in ["crates.txt", *files(".antt", ".rt", ".edit", ".md")]:
        text = was = read(path)
        if path == "crates.txt":
            text = re.sub(rf"(?m)(^| ){crate}(?=[ :\n])", rf"\1{to}", text)
        text = text.replace(f"Rattle.{crate}.", f"Rattle.{to}.").replace(f"crates/{crate}/", f"crates/{to}/")
        if path.endswith(".rt"):
            text = re.sub(rf"(?<![\w:.]){crate}::", f"{to}::", text)
        if text != was:
            with open(path, "w", encoding="utf-8") as it:
                it.write(text)


def main():
    texts = {p: read(p) for p in files(".antt")}
    declared, imported, tokens = collections.defaultdict(set), collections.defaultdict(set), set()
    foreign = set()
    for path, text in texts.items():
        for line in text.split("\n"):
            line = re.sub(r"(^|\s)--.*", "", line)
            head = re.match(r"\s*(?:pub )?use (\S+?)\.\{(.*)\}", line)
            if head:
                names = [it.strip().split(" as ") for it in head[2].split(",")]
                for name in names:
                    imported[name[-1]].add(path)
                    if not head[1].startswith("Rattle."):
                        foreign.add(name[0])
            found = SIGNATURE.match(line)
            if found:
                declared[found[1]].add(path)
            tokens.update(re.findall(NAME + "+", line))
    turned = {it: snake(it) for it in tokens if snake(it) != it and it not in foreign}
    twice = [it for it, n in collections.Counter(turned.values()).items() if n > 1]
    if twice:
        sys.exit(f"two names fall together at {twice}")
    taken = {it for it in turned.values() if it in declared}
    if any(it + "_lem" in tokens for it in taken):
        sys.exit("a name with _lem is taken")
    pattern = re.compile(r"(?<![\w'-])(" + "|".join(map(re.escape, sorted(turned, key=len, reverse=True))) + r")(?![\w'-])")
    for path in files(".antt", ".rt", ".edit", ".md"):
        text = was = read(path)
        for name in taken:
            if path in declared[name] or path in imported[name]:
                text = re.sub(rf"(?<![\w'.-]){name}(?![\w'.-])", name + "_lem", text)
        text = pattern.sub(lambda m: turned[m[1]], text)
        if text != was:
            with open(path, "w", encoding="utf-8") as it:
                it.write(text)
    rename("log", "call_log")
    print(f"respell: {len(turned)} names; with _lem: {sorted(taken)}")


main()
