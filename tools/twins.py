"""Lists the functions of src/ whose bodies are the same but for names, numbers and texts.

    python3 tools/twins.py [FOLDER]     # FOLDER: crates, if none is given

Each group is a place to look: one generic function may serve where the logic really is the same.
"""
import glob
import re
import sys

KEYWORDS = set("let mut fn if else match return for in while loop as use pub impl Some None Ok Err self Self".split())
TOKEN = re.compile(r'//[^\n]*|"(?:\\[\s\S]|[^"\\])*"|\'(?:\\.|[^\'\\])\'|[A-Za-z_][A-Za-z_0-9]*|[0-9][0-9A-Za-z_]*|[^\sA-Za-z_0-9]')


def tokens(text):
    return [t for t in TOKEN.findall(text) if not t.startswith("//")]


def without_clauses(toks):
    """The tokens between a function's name and its body, and the body."""
    depth, i = 0, 0
    while i < len(toks):
        if toks[i] in ("requires", "ensures", "ghost"):
            while toks[i] != "{":
                i += 1
            i = past_braces(toks, i)
            continue
        if toks[i] == "{":
            return toks[i : past_braces(toks, i)]
        if toks[i] == ";" and depth == 0:
            return []
        depth += toks[i] in "(["
        depth -= toks[i] in ")]"
        i += 1
    return []


def past_braces(toks, i):
    depth = 0
    while True:
        depth += toks[i] == "{"
        depth -= toks[i] == "}"
        i += 1
        if depth == 0:
            return i


def shape(body):
    return " ".join(
        t if t in KEYWORDS or not re.match(r'[A-Za-z_0-9"\']', t) else "_" for t in body
    )


def main():
    folder = sys.argv[1] if len(sys.argv) > 1 else "crates"
    groups = {}
    for path in sorted(glob.glob(f"{folder}/*/src/*.rt")):
        toks = tokens(open(path).read())
        for i, t in enumerate(toks):
            if t == "fn" and re.match(r"[a-z_]", toks[i + 1]):
                body = without_clauses(toks[i + 2 :])
                if len(body) > 2:
                    groups.setdefault(shape(body), []).append(f"{path}:{toks[i + 1]}")
    for key, places in groups.items():
        if len(places) > 1:
            print(f"{len(places)}: {', '.join(places)}")


main()
