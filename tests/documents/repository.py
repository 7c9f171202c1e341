"""What the repository has, by name: its files, the items and clauses of its crates, and the words that it prints."""

import json
import os
import re

WORD = re.compile(r"[A-Za-z_][\w'-]*")
LEFT_OUT = {".git", "out", "build", "__pycache__"}
# Before a name in a crate's code: what makes it an item, a clause or a field of it. Comments and texts are gone then.
ITEM = re.compile(r"\b(?:fn|struct|enum|trait|const|static|type|mod|macro_rules!|ghost) +(\w+)")
CLAUSE = re.compile(r"\b(?:ensures|requires|invariant|decreases) +(\w+) *\{")
FIELD = re.compile(r"^ *(?:pub(?:\([a-z]+\))? +)?(?:ghost +)?(\w+) *:[^:]", re.M)
PARAMETER = re.compile(r"[(,] *(?:mut +)?([a-z]\w*) *: ")
VARIANT = re.compile(r"^ *([A-Z]\w*) *(?:,|\(|\{|$)", re.M)
# The same in its definitions and lemmas.
DEFINED = re.compile(r"^ *(?:(?:abbrev|unfoldable|pub|data|record|mod) +)*([^\s:(){}]+)(?: +[({][^\n]*[)}])? *(?::|$)", re.M)
IMPORTED = re.compile(r"^(?:pub |ghost )*use [\w.:]*\{([^}]*)\}", re.M)
STRING = re.compile(r'"((?:[^"\\]|\\[\s\S])*)"')
# A character, a text or a comment, whichever comes first.
QUOTED = re.compile(r"""(b?'(?:[^'\\\n]|\\[^\n][^'\n]*)')|("(?:[^"\\]|\\[\s\S])*")|//[^\n]*""")


def read(path):
    with open(path, encoding="utf-8", errors="replace") as file:
        return file.read()


def files():
    """The paths of all files, from the top of the repository."""
    found = []
    for folder, folders, names in os.walk("."):
        folders[:] = sorted(set(folders) - LEFT_OUT)
        found += [os.path.normpath(os.path.join(folder, name)) for name in names if not name.endswith(".log")]
    return sorted(found)


def crates():
    """Each crate with those that it stands on, as crates.txt has them."""
    lines = (line.split("#")[0].strip() for line in read("crates.txt").splitlines())
    return {name: below.split() for name, _, below in (line.partition(":") for line in lines if line)}


def split_code(text):
    """The code of a .rt file without its comments and texts, and the texts."""
    text = QUOTED.sub(lambda found: "' '" if found.group(1) else found.group(2) or "", text)
    return STRING.sub('""', text), STRING.findall(text)


def items_of_file(path):
    """The names that a file of a crate makes, and those that it imports."""
    text = read(path)
    imported = {name for names in IMPORTED.findall(text) for name in re.findall(r"[\w'-]+", names)}
    return made_in_file(path, text) | imported


def made_in_file(path, text):
    if path.endswith(".rt"):
        code, _ = split_code(text)
        found = [name for form in (ITEM, CLAUSE, FIELD, PARAMETER, VARIANT) for name in form.findall(code)]
        # Several variants may stand on one line.
        for body in re.findall(r"\benum \w+[^{]*\{([^}]*)\}", code):
            found += re.findall(r"\b[A-Z]\w*", body)
        return set(found)
    code = re.sub(r"--[^\n]*", "", text)
    return {part for name in DEFINED.findall(code) for part in (name, name.split(".")[-1])}


def texts_of_file(path):
    """The words of the texts that a file of a crate has, but for its tests."""
    if path.endswith(".rt"):
        return [] if "tests" in os.path.basename(path) else split_code(read(path).split("\nmod tests {")[0])[1]
    return re.findall(r'codes "((?:[^"\\]|\\.)*)"', read(path))


def words(text):
    """The words and the options in a text."""
    text = re.sub(r"\\[nt]", " ", text)
    return {word.rstrip("'") for word in WORD.findall(text)} | set(re.findall(r"(?<![\w-])--[a-z][a-z-]*", text))


def names_in(value):
    """All names and texts of a value of JSON."""
    if isinstance(value, dict):
        return set(value).union(*map(names_in, value.values()))
    if isinstance(value, list):
        return set().union(*map(names_in, value))
    return words(value) if isinstance(value, str) else set()


class Repository:
    def __init__(self):
        self.files = files()
        self.folders = {os.path.dirname(path)[:end] for path in self.files
                        for end in [m.start() for m in re.finditer("/|$", os.path.dirname(path))]} - {""}
        self.crates = crates()
        self.items = {path: items_of_file(path) for path in self.files
                      if path.startswith("crates/") and path.endswith((".rt", ".antt"))}
        self.names = set(self.crates).union(*self.crates.values(), *self.items.values())
        self.names |= {part for path in self.files for part in re.split("[/]", path)}
        self.names |= {os.path.splitext(os.path.basename(path))[0] for path in self.files}
        for path in self.items:
            self.names |= set().union(*map(words, texts_of_file(path)))
        self.names |= names_in(json.loads(read("docs/job.schema.json")))
        for path in self.files:
            if path == "Makefile" or re.fullmatch(r"(tools|bench|tests)/[^.]*(\.sh)?|(tools|tests)/.*\.py", path):
                text = read(path)
                self.names |= set(re.findall(r"(?<![\w-])(--?[a-z][a-z-]*)", text))
                self.names |= set(re.findall(r"^([A-Za-z_][\w-]*) *(?:\?=|=|:)", text, re.M))
                self.names |= set(re.findall(r"\$\{?([A-Z]\w+)", text))
            elif path.startswith("samples/") and path.endswith((".json", ".report")):
                self.names |= words(read(path))

    def has_path(self, path, near):
        """Whether there is such a file or folder; a path within a crate is sought in the crates `near`."""
        places = [path, "docs/" + path, "crates/" + path, "crates/" + path.replace("/", "/src/", 1)]
        places += [f"crates/{crate}/{part}{path}" for crate in near for part in ("", "src/", "specs/", "proofs/")]
        if "/" not in path and not (near and path.endswith((".rt", ".antt"))):
            places += [file for file in self.files if os.path.basename(file) == path]
        return any(place + end in self.files or (place in self.folders and not end)
                   for place in places for end in ("", ".antt", ".rt"))
