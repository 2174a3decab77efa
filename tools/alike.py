"""Functions that are alike but for types, numbers, constants and the names of what they call.

    python3 tools/alike.py [COMMIT]

prints the groups of functions in crates/*/src, tests left out, whose bodies have the same shape: the same words and marks in the same order, with
each path, number and string taken as one mark. Bodies of less than SHORT marks are left out. Of the working tree, or of a commit.
"""
import collections
import re
import subprocess
import sys

SHORT = 8
WORDS = {"let", "mut", "if", "else", "while", "for", "in", "match", "return", "break", "as", "true", "false", "Some", "None", "Ok", "Err"}


def sources(commit):
    listed = ["git", "ls-tree", "-r", "--name-only", commit or "HEAD", "crates"]
    for path in subprocess.check_output(listed, text=True).split():
        if re.search(r"^crates/(?!\w+_tests/)\w+/src/(?!tests)\w+\.rt$", path):
            if commit:
                yield path, subprocess.check_output(["git", "show", f"{commit}:{path}"], text=True)
            else:
                yield path, open(path).read()


def functions(text):
    text = text.split("#[cfg(test)]\nmod tests {")[0]
    for found in re.finditer(r"^( *)(?:pub(?:\(\w+\))? )?(?:const )?fn (\w+)(.*?)^\1\{\n(.*?)^\1\}$|^( *)(?:pub(?:\(\w+\))? )?fn (\w+)[^\n]*\{\n(.*?)^\5\}$", text, re.M | re.S):
        yield (found[2] or found[6]), (found[4] if found[2] else found[7])


def shape(body):
    body = re.sub(r"//.*", "", body)
    names, marks = {}, []
    for mark in re.findall(r'"[^"]*"|b?\'[^\']*\'|[A-Za-z_]\w*(?:::[A-Za-z_<>]\w*)*|\d[\w_]*|\S', body):
        if mark in WORDS or not re.match(r'["\w]', mark):
            marks.append(mark)
        elif re.match(r'["\d]|[A-Z]|b?\'', mark) or "::" in mark:
            marks.append("#")
        else:
            marks.append(names.setdefault(mark, f"n{len(names)}"))
    return " ".join(marks)


groups = collections.defaultdict(list)
for path, text in sources(sys.argv[1] if len(sys.argv) > 1 else ""):
    for name, body in functions(text):
        key = shape(body)
        if len(key.split()) >= SHORT:
            groups[key].append(f"{path}: {name}")
alike = [group for group in groups.values() if len(group) > 1]
for group in sorted(alike):
    print("\n".join(group), end="\n\n")
print(len(alike), "groups of", sum(map(len, alike)), "functions")
