#!/usr/bin/env python3
"""Counts the older forms in crates/*/src, point by point, for docs/DESIGN-PASS.md.

    python3 tools/count-forms.py            the working tree
    python3 tools/count-forms.py COMMIT     a commit
    .. -v                                   lists the places
"""
import re
import subprocess
import sys

args = [a for a in sys.argv[1:] if a != "-v"]
verbose = "-v" in sys.argv


def git(*a):
    return subprocess.run(["git", *a], capture_output=True, text=True, check=True).stdout


def files(suffix, folder):
    names = git("ls-tree", "-r", "--name-only", args[0]) if args else git("ls-files", "-co", "--exclude-standard")
    for n in sorted(set(names.split("\n"))):
        if re.match(r"crates/\w+/%s/.*\.%s$" % (folder, suffix), n):
            try:
                yield n, git("show", "%s:%s" % (args[0], n)) if args else open(n).read()
            except FileNotFoundError:
                pass


SRC = list(files("rt", "src"))


def functions(text):
    """name, parameters and body of each function"""
    for m in re.finditer(r"^ *(?:pub )?(?:extern \"C\" )?fn (\w+)(?:<[^>]*>)?\(", text, re.M):
        depth, i = 1, m.end()
        while depth:
            depth += {"(": 1, ")": -1}.get(text[i], 0)
            i += 1
        params = text[m.end() : i - 1]
        j = re.compile(r"^ *\{$|\{$", re.M).search(text, i)
        if not j:
            continue
        body, depth, k = j.end(), 1, j.end()
        while depth and k < len(text):
            depth += {"{": 1, "}": -1}.get(text[k], 0)
            k += 1
        yield m.group(1), params, text[body : k - 1], text.count("\n", 0, m.start()) + 1


def row(point, what, places):
    print("%-3s %5d  %s" % (point, len(places), what))
    if verbose:
        for p in places:
            print("            " + p)


def lines(pattern):
    r = re.compile(pattern)
    return ["%s:%d: %s" % (n, i + 1, l.strip()) for n, t in SRC for i, l in enumerate(t.split("\n")) if r.search(l)]


def enums():
    out = []
    for n, t in SRC:
        for m in re.finditer(r"^(?:pub )?enum (\w+) \{\n(.*?)^\}", t, re.M | re.S):
            v = [x for x in re.findall(r"^    (\w+)(\(| \{|,)", m.group(2), re.M)]
            if len(v) <= 2 or (len(v) == 3 and {x for x, y in v} & {"BadG"}):
                out.append("%s: %s" % (n, m.group(1)))
    return out


def together():
    some = {"g: Geometry", "tags: &[u8]", "paths: &[u64]", "contents: &[u8]"}
    out, many = [], []
    for n, t in SRC:
        for name, params, body, line in functions(t):
            p = [re.sub(r"\s+", " ", x).strip() for x in re.split(r",(?![^\[(<]*[\])>])", params) if x.strip()]
            p = [re.sub(r"&mut ", "&", x) for x in p]
            if len(some & set(p)) >= 2:
                out.append("%s:%d: %s" % (n, line, name))
            if len(p) > 7:
                many.append("%s:%d: %s (%d)" % (n, line, name, len(p)))
    return out, many


def twins():
    """bodies that are the same but for the names of number types, and the small helpers that std has"""
    seen, out = {}, []
    for n, t in SRC:
        for name, params, body, line in functions(t):
            b = re.sub(r"\s+", " ", re.sub(r"\b(u8|u16|u32|u64|usize)\b", "N", re.sub(r"//.*", "", body))).strip()
            if b:
                seen.setdefault(b, []).append("%s:%d: %s" % (n, line, name))
    for b, p in sorted(seen.items()):
        if len(p) > 1:
            out += p
    return out


alike, many = together()
row("1", "own enums of two ways", enums())
row("1", "a field `said` beside what it speaks of", lines(r"^    pub said: Said"))
row("1", "16, 256 or 1024 for none", lines(r"== (16|256) \{|Refused\(_\) => 1024"))
row("2", "functions whose body is another's, but for the number's type", twins())
row("2", "helpers that std has: casts, least and greatest, an element or 0, fills and copies", [
    "%s:%d: %s" % (n, line, name) for n, t in SRC for name, p, b, line in functions(t)
    if name in ("wide near least lesser larger at_most up_to_two tag_byte path_word byte_at mask_at peek clear fill blank "
                "copy_bytes write_page put_bytes put_paths copy_rows move_down move_up past_lower or_same and_ones weight").split()
    and "::" not in b and not re.search(r"\.(get|fill|copy_from_slice)\(", b)])
row("3", "`while` loops", lines(r"^\s*while "))
row("4", "`return true;` and `return false;`", lines(r"^\s*return (true|false);"))
row("4", "conversions in a function of their own", [
    "%s:%d: %s" % (n, line, name) for n, t in SRC for name, p, b, line in functions(t)
    if name in "ended done counted insertion_of insertion_at whole refused same_tag".split() and re.search(r"Outcome|Insertion|Count|byte_of", b)])
row("5", "functions that take two or more of the geometry, tags, paths and contents", alike)
row("5", "functions of more than seven parameters", many)
row("6", "arrays with a count beside", lines(r"^    pub (count|files|runs|n): usize,"))
row("7", "numbers for a kind or a state: `kind: u8`, `state: u8`", lines(r"\b(kind|state): u8[,)]"))
answers = [n for n, t in files("antt", "proofs") if n.endswith("Answers.antt")]
row("8", "proof files of answers", answers)
print("8   %5d  lines of proofs/" % sum(t.count("\n") for n, t in files("antt", "proofs")))
