"""Says what the documents name that the repository does not have. Works from the top of the repository.

In docs/*.md and the *.md files at the top it looks at

- each word in backquotes: an item, a clause, a field or a parameter of a crate's code, a definition or a lemma, a
  crate, a file, a member of a job, a command or an option, a word that the program prints, a target of make, or a
  word of the examples in the same document;
- each path: of a file or folder of the repository, or within a crate that the same line names;
- names in backquotes before 'in PATH' or '(PATH)': each stands in that file;
- the tables of clauses, of crates and of fields: they have all of them, and docs/job.schema.json has all fields.

allowed.txt, beside this program, has the words of others (Rust, the kit, the system), each group with its reason.
"""

import glob
import json
import os
import re
import sys

from repository import Repository, WORD, read, split_code

HERE = os.path.dirname(__file__)
PATH = re.compile(r"(?<![\w/.~$<>-])(?:\.\./)*((?:[\w.*-]+/)+[\w.*-]*[\w*]|[\w-]+\.(?:rt|antt|md|sh|py|txt|edit|report)|(?:\w+\.schema|job)\.json)(?![\w/])")
SPAN = re.compile(r"``([^`]+(?:`[^`]+)*)``|`([^`\n]+)`")


class Document:
    def __init__(self, path, repository, allowed):
        self.path, self.repository, self.allowed = path, repository, allowed
        self.lines = read(path).splitlines()
        self.examples = self.words_of_examples()
        self.looked, self.faults = 0, []

    def words_of_examples(self):
        """The words of the blocks of JSON and of what a command prints."""
        found, inside = set(), False
        for line in self.lines:
            if line.startswith("```"):
                inside = not inside
            elif inside or line.startswith("    "):
                found |= set(WORD.findall(line))
        return found

    def demand(self, holds, number, what):
        self.looked += 1
        if not holds:
            self.faults.append(f"{self.path}:{number}: {what}")

    def near(self, line):
        """The crates that a line names; all lines of a section about a crate need not repeat it."""
        return [crate for crate in self.repository.crates if re.search(rf"(?<!\w){crate}(?!\w)", line)]

    def has(self, word):
        if len(word) == 1 or word in self.repository.names or word in self.allowed or word in self.examples:
            return True
        if word.endswith("_"):
            return any(name.startswith(word) for name in self.repository.names)
        return "-" in word and not word.startswith("-") and all(self.has(part) for part in word.split("-") if part)

    def check(self):
        inside = False
        for number, line in enumerate(self.lines, 1):
            if line.startswith("```"):
                inside = not inside
                continue
            if not inside:
                self.check_line(number, line, self.near(line))

    def check_line(self, number, line, near):
        for match in re.finditer(r"\]\(([^)#]+)[^)]*\)", line):
            target = match.group(1)
            if "://" not in target:
                place = os.path.normpath(os.path.join(os.path.dirname(self.path), target))
                self.demand(os.path.exists(place), number, f"no file {place}")
        for match in PATH.finditer(line):
            self.check_path(number, match.group(1), near)
        if line.startswith("    "):
            return
        for match in SPAN.finditer(line):
            span = match.group(1) or match.group(2)
            if not PATH.fullmatch(span):
                self.check_span(number, span)
        for names, path in re.findall(r"((?:`[\w.]+`(?:,| and)? ?)+)(?:in |\()(\w+/specs/\w+|specs/\w+)", line):
            self.check_places(number, re.findall(r"`([\w.]+)`", names), path, near)

    def check_path(self, number, path, near):
        if path in self.allowed or re.fullmatch(r"[\d.]+/\d+|[A-Za-z]/[A-Za-z]", path):
            return
        if "*" in path:
            self.demand(any(glob.glob(place + path) for place in ("", "crates/")), number, f"no path {path}")
        else:
            self.demand(self.repository.has_path(path.rstrip("/"), near), number, f"no path {path}")

    def check_span(self, number, span):
        span = re.sub(r"<[a-z][a-z ,:.]*>|\b([0-9A-F]{2} )+[0-9A-F]{2}\b", " ", span)
        for word in re.findall(r"(?<![\w-])--?[a-z][a-z-]*|(?<![\w'-])[A-Za-z_][\w'-]*", span):
            word = word.rstrip("'")
            self.demand(self.has(word), number, f"no name {word}")

    def check_places(self, number, names, path, near):
        places = [path] if not path.startswith("specs/") else [f"{crate}/{path}" for crate in near]
        for name in names:
            there = [self.repository.items.get(f"crates/{place}.antt", set()) for place in places]
            self.demand(any(name in items for items in there), number, f"no {name} in {path}")


def check_tables(repository, fault):
    """The table of clauses has those of `run_tool`, and the tables of crates have those of crates.txt. Answers how
    many there are."""
    code, _ = split_code(read("crates/dshark_cli/src/tool.rt"))
    top = re.search(r"pub fn run_tool\b.*?\n\{", code, re.S).group()
    clauses = set(re.findall(r"\bensures (\w+) \{", top))
    # The clause `promises` is a record, whose fields are clauses too.
    promises = read("crates/dshark_cli/specs/Promises.antt").split("pub record Promises")[1]
    clauses |= set(re.findall(r"^  pub (\w+) :", promises, re.M))
    section = read("docs/PROMISES.md").split("## The clauses of `run_tool`")[1].split("\n## ")[0].split("The status")[0]
    told = {name for row in re.findall(r"^\| (`.*?) \|", section, re.M) for name in re.findall(r"`(\w+)`", row)}
    for clause in clauses - told:
        fault(f"docs/PROMISES.md: the table lacks the clause {clause} of run_tool")
    for clause in told - clauses:
        fault(f"docs/PROMISES.md: run_tool has no clause {clause}")

    rows = dict(re.findall(r"^\| (\w+) \| [^|]* \| ([^|]*) \|", read("docs/ARCHITECTURE.md").split("## The crates")[1], re.M))
    for crate, below in repository.crates.items():
        if crate not in rows:
            fault(f"docs/ARCHITECTURE.md: the table of crates lacks {crate}")
        elif " above" not in rows[crate] and set(re.findall(r"\w+", rows[crate])) != set(below):
            fault(f"docs/ARCHITECTURE.md: {crate} stands on {', '.join(below) or 'nothing'}")
    readme = read("README.md").split("## What is proved")[1]
    for crate in repository.crates:
        if not re.search(rf"\b{crate}\b", readme):
            fault(f"README.md: the table of what is proved lacks {crate}")
    return len(clauses | told) + 2 * len(repository.crates)


def fields_in_code():
    """The rows of the table of fields by kind: name, first bit (or what says where it is), number of bits, form."""
    text = read("crates/field_table/src/table.rt")
    rows = {table: re.findall(r'row!\("(\w+)", (?:At\()?(\w+)\)?, (\d+), (\w+)\)', body)
            for table, body in re.findall(r"static (\w+): [^=]* = \[(.*?)\n\];", text, re.S)}
    kinds = dict(re.findall(r'Kind::(\w+) => "(\w+)"', read("crates/field_table/src/names.rt")))
    arms = re.findall(r"((?:Kind::\w+ \| )*Kind::\w+) => &(\w+)", text)
    return {kinds[kind]: rows[table] for kind_words, table in arms for kind in re.findall(r"Kind::(\w+)", kind_words)}


def check_fields(fault):
    """The table of fields in docs/FORMATS.md, and the fields of docs/job.schema.json, are those of the code."""
    code = fields_in_code()
    told = {}
    section = read("docs/FORMATS.md").split("## Fields")[1].split("\n## ")[0]
    for kinds, cell in re.findall(r"^\| ([a-z0-9, ]+) \| (\w+(?: \(\w+\))?: .*) \|$", section, re.M):
        rows = []
        for name, form, rest in re.findall(r"(\w+)(?: \((\w+)\))?: ([^;]*)", cell):
            plain = re.fullmatch(r"(\d+), (\d+)(?:, (\w+))?", rest)
            bits = re.match(r"the (\d+) bits", rest)
            if plain:
                rows.append((name, plain.group(1), plain.group(2), plain.group(3) or "Dec"))
            elif bits:
                rows.append((name, None, bits.group(1), form or "Dec"))
        told.update({kind: rows for kind in kinds.split(", ") if rows})
    schema = {}
    for row in json.loads(read("docs/job.schema.json"))["$defs"]["field"]["allOf"]:
        kind = row["if"]["pattern"].strip("^\\[")
        names = row["then"]["pattern"].strip("\\.($)").split("|")
        schema.update({word: names for word in ([kind[:-2], kind[:-1]] if kind.endswith("?") else [kind])})
    for kind, rows in code.items():
        known = [(name, at if at.isdigit() else None, bits, form) for name, at, bits, form in rows]
        if told.get(kind) != known:
            fault(f"docs/FORMATS.md: the fields of {kind} are not those of the code")
        if schema.get(kind) != [name for name, _, _, _ in rows]:
            fault(f"docs/job.schema.json: the fields of {kind} are not those of the code")
    for kind in (set(told) | set(schema)) - set(code):
        fault(f"docs/FORMATS.md or docs/job.schema.json: no kind {kind} in the code")
    return 2 * len(code)


def main():
    repository = Repository()
    allowed = set()
    for line in read(os.path.join(HERE, "allowed.txt")).splitlines():
        allowed |= set(line.split()) if not line.startswith("#") else set()
    faults, looked = [], 0
    for path in sorted(glob.glob("docs/*.md") + glob.glob("*.md")):
        document = Document(path, repository, allowed)
        document.check()
        faults += document.faults
        looked += document.looked
    looked += check_tables(repository, faults.append)
    looked += check_fields(faults.append)
    for fault in faults:
        print("FAILED", fault)
    print(f"tests/documents/names.sh: {looked - len(faults)} passed, {len(faults)} failed")
    sys.exit(bool(faults))


main()
