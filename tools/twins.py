#!/usr/bin/env python3
"""Lists functions whose bodies are alike: the same text once numbers, types and names of this repository's functions are put aside.

    python3 tools/twins.py [FOLDER]    the .rt files below FOLDER/crates/*/src but for tests
"""
import collections, pathlib, re, sys

top = pathlib.Path(sys.argv[1] if len(sys.argv) > 1 else ".")
HEAD = re.compile(r"\n( *)(?:pub(?:\([a-z]+\))? )?fn (\w+)")

def functions(path):
    text = path.read_text()
    for found in HEAD.finditer(text):
        indent, name = found.groups()
        start = text.find("\n" + indent + "{\n", found.end())
        inline = text.find(") {\n", found.end())
        inline_result = re.search(r"\) -> [^\n;{]* \{\n", text[found.end():])
        begins = [x for x in (start, inline, found.end() + inline_result.start() if inline_result else -1) if x >= 0]
        if not begins:
            continue
        begin = min(begins)
        open_at = text.find("{\n", begin)
        end = text.find("\n" + indent + "}", open_at)
        yield name, text[open_at + 2:end]

def alike(body):
    body = re.sub(r"//[^\n]*", "", body)
    body = re.sub(r"\b(?:0x[0-9a-f_]+|[0-9][0-9_]*)(?:[iu](?:8|16|32|64|size))?\b", "N", body)
    body = re.sub(r"\b[iu](?:8|16|32|64|size)\b", "T", body)
    body = re.sub(r"\b[A-Z]\w*\b", "K", body)
    body = re.sub(r"\b[a-z]\w*\b", "v", body)
    return re.sub(r"\s+", " ", body).strip()

groups = collections.defaultdict(list)
for path in sorted(top.glob("crates/*/src/*.rt")):
    if path.name == "tests.rt":
        continue
    for name, body in functions(path):
        groups[alike(body)].append(f"{path.relative_to(top)}:{name}")
shown = [names for key, names in groups.items() if len(names) > 1 and len(key) > 13]
for names in sorted(shown):
    print("; ".join(names))
print(len(shown), "groups")
