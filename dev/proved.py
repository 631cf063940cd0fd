"""Lists the definitions that the headline statements rest on, in docs/PROVED.md.

    python3 -m dev.proved [--check]

From the contract of each headline call it follows the names through `ghost use` and `use`, to every definition of the
folders specs/ and every type of the folders src/ that they name, and writes them between two marks of the page. With
--check it writes nothing and fails where the page isn't current. Names are followed by their spelling, so a local
name that is spelled like a definition counts, too: the list may have a few names too many, and none too few. Laws,
whose proofs the checker has read, are left out. With --check it also fails where no section of docs/CONVERSATION.md
names the file of such a definition.

The status is 0 if the page is current or was written, 1 if --check finds that it isn't, 2 for invalid arguments.
"""

import pathlib
import re
import sys

TOP = pathlib.Path(__file__).resolve().parent.parent
PAGE, MEANING = TOP / "docs" / "PROVED.md", TOP / "docs" / "CONVERSATION.md"
BEGIN, END = "<!-- The lines from here on are written by dev/proved.py. -->", "<!-- Up to here. -->"

# The headline statements: a title, and the public calls whose contracts they are.
HEADLINES = (
    ("read_all", (("zk_talk", "read_all"),)),
    ("Speaker::say", (("zk_talk", "say"),)),
    ("show_run and check_run", (("zk_listings", "show_run"), ("zk_listings", "check_run"))),
    ("check_earliest_run", (("zk_listings", "check_earliest_run"),)),
    ("build_run", (("zk_runs", "build_run"),)),
    ("migrate_run", (("zk_runs", "migrate_run"),)),
)

WORD = re.compile(r"[^\s(){}\[\],;:`]+")
SIGNATURE = re.compile(r"^(?:(abbrev|unfoldable) )?(?:pub )?(?:(record|data) )?([^\s:(]+)(?= [({:]| :)")


def words(text):
    """The words of a text in either language, one with signs in it whole and in its parts."""
    for word in WORD.findall(text):
        word = word.strip(".")
        yield word
        parts = re.split(r"[.<>&']", word)
        if len(parts) > 1:
            yield from parts


def imports(text, keyword):
    """What the lines `use Rattle.A.{B.x, B.y as z}` and `use Rattle.A.B as c` bring: a word to (module, name)."""
    for line in re.finditer(rf"^ *{keyword} (Rattle\.\S+?)(?:\.\{{(.*?)\}}| as (\S+?));?$", text, re.M | re.S):
        if line[3]:
            yield line[3], (line[1], None)
            continue
        for entry in line[2].split(","):
            path, _, other = entry.strip().partition(" as ")
            module, _, name = f"{line[1]}.{path}".rpartition(".")
            yield other or name, (module, name)


class Definition:
    """A definition of a folder specs/, or a type of a folder src/: its file, its name, and its text."""

    def __init__(self, module, name, text, scope):
        self.module, self.name, self.text, self.scope = module, name, text, scope


class Module:
    """A file: what it defines, by each word that leads there, and what it imports."""

    def __init__(self, path, scope):
        self.path, self.scope, self.names = path, scope, {}


def spec_modules():
    """The files of the folders specs/, by their names in `use`."""
    found = {}
    for path in sorted(TOP.glob("crates/*/specs/*.antt")):
        crate = path.parts[-3]
        text = re.sub(r"--.*", "", path.read_text())
        module = Module(path, dict(imports(text, "use")))
        current = None
        for line in text.splitlines():
            head = SIGNATURE.match(line)
            if head and not line.startswith(("use ", "infixr ", "unfolding ")) and (head[1] or head[2] or " = " not in line):
                law = not (head[1] or head[2])
                current = None if law else Definition(module, head[3], "", module.scope)
                if current:
                    module.names[head[3]] = current
            elif line.startswith(("use ", "infixr ")):
                current = None
            if not current:
                continue
            if not head and line.startswith("  ") and " : " in line:
                name, _, rest = line.strip().removeprefix("pub ").partition(" : ")
                if re.search(rf"\b(record|data) {re.escape(current.name)}\b", current.text) and " " not in name:
                    # a field, or a constructor, which leads to its type
                    module.names.setdefault(name, current) if "data " in current.text else None
                    line = rest
            current.text += line + "\n"
        found[f"Rattle.{crate}.specs.{path.stem}"] = module
    return found


def block(text, start):
    """The text from there to the end of the braces that it opens first."""
    depth = 0
    for at in range(text.index("{", start), len(text)):
        depth += {"{": 1, "}": -1}.get(text[at], 0)
        if depth == 0:
            return text[start:at + 1]
    return text[start:]


def source_modules():
    """The files of the folders src/: their types and traits, with the views that contracts see."""
    found = {}
    for path in sorted(TOP.glob("crates/*/src/**/*.rt")):
        crate = path.relative_to(TOP).parts[1]
        text = re.sub(r"//.*", "", path.read_text())
        module = Module(path, dict(imports(text, "ghost use")))
        for use in re.finditer(r"^use (crate|zk\w*)(?:::(\w+))?::(?:\{(.*?)\}|(\w+));", text, re.M | re.S):
            for name in re.findall(r"\w+", use[3] or use[4]):
                module.scope.setdefault(name, ("crate " + (crate if use[1] == "crate" else use[1]), name))
        for kind in re.finditer(r"^pub (struct|enum|trait) (\w+)[^{;]*\{", text, re.M):
            body = block(text, kind.start())
            scope = dict(module.scope)
            for view in re.finditer(rf"^impl\b[^\n{{]*\bModel for {kind[2]}\b[^\n{{]*\{{", text, re.M):
                seen = block(text, view.start())
                scope.update(imports(seen, "ghost use"))
                body += seen
            body = re.sub(r"^ *ghost use .*$", "", body, flags=re.M)
            module.names[kind[2]] = Definition(module, kind[2], body, scope)
        found[(crate, path.stem)] = module
    return found


class Library:
    """All modules, and the way from a word to what it names."""

    def __init__(self):
        self.specs = spec_modules()
        self.sources = source_modules()
        self.types = {}
        for (crate, _), module in self.sources.items():
            for name, kind in module.names.items():
                self.types.setdefault((crate, name), kind)

    def at(self, module, name):
        """The definition of this name in a module, or None."""
        if module.startswith("crate "):
            return self.types.get((module[6:], name))
        declared = re.match(r"Rattle\.(\w+)\.specs\.declared\.(?:.*\.)?(\w+?)(?:\.TheVariants)?$", module)
        if declared:
            return self.types.get((declared[1], declared[2]))
        return self.specs[module].names.get(name) if module in self.specs else None

    def named(self, word, scope, own):
        """What a word names where these imports hold."""
        head, _, rest = word.partition(".")
        if rest and scope.get(head, (None, 0))[1] is None:
            return self.at(scope[head][0], rest.split(".")[0]) if head in scope else None
        if word in scope and scope[word][1] is not None:
            return self.at(*scope[word])
        return own.get(word)

    def closure(self, text, scope, own):
        """All definitions that a text rests on."""
        found, open_now = [], [(text, scope, own)]
        while open_now:
            text, scope, own = open_now.pop()
            # an operator `◌then◌` is written as the word between its blanks
            mixed = {part: name for name in [*scope, *own] if "◌" in name for part in name.split("◌") if part}
            for word in words(text):
                definition = self.named(mixed.get(word, word), scope, own)
                if definition and definition not in found:
                    found.append(definition)
                    open_now.append((definition.text, definition.scope, definition.module.names))
        return found

    def contract(self, crate, name):
        """The definitions that the contract of a public call rests on."""
        for (of, _), module in self.sources.items():
            text = re.sub(r"//.*", "", module.path.read_text())
            call = re.search(rf"pub fn {name}[<(].*?^ *\{{$", text, re.M | re.S)
            if of == crate and call:
                return self.closure(call[0], module.scope, module.names)
        sys.exit(f"proved.py: the crate {crate} has no public call {name}\n0 passed, 1 failed")


def table(definitions):
    """The definitions by their files."""
    by_file = {}
    for definition in definitions:
        by_file.setdefault(definition.module.path.relative_to(TOP), []).append(definition.name)
    rows = [f"| `{path}` | {', '.join(f'`{name}`' for name in sorted(names))} |" for path, names in sorted(by_file.items())]
    return "\n".join(["| File | Definitions and types |", "|---|---|", *rows])


def generated():
    """The part of the page that is written here."""
    library, before, parts = Library(), [], []
    for title, calls in HEADLINES:
        rests = []
        for call in calls:
            rests += [definition for definition in library.contract(*call) if definition not in rests]
        specs = sum(definition.module.path.suffix == ".antt" for definition in rests)
        files = len({definition.module.path for definition in rests})
        more = [definition for definition in rests if definition not in before]
        text = f"### `{title.replace(' and ', '` and `')}`\n\n{specs} definitions and {len(rests) - specs} types, in {files} files"
        if before:
            text += f"; {len(rests) - len(more)} of them are above, and these {len(more)} are new"
        parts.append(f"{text}.\n\n{table(more)}")
        before += more
    return "\n\n".join(parts)


def unexplained(text, meaning):
    """The files of definitions in the tables of a text that the other one doesn't name. A name without a folder has that
    of the name before it in its line."""
    named = set()
    for line in meaning.splitlines():
        folder = ""
        for name in re.findall(r"`([\w/]+\.antt)`", line):
            folder = name.rpartition("/")[0] or folder
            named.add(f"{folder}/{name.rpartition('/')[2]}")
    return sorted({*re.findall(r"^\| `(crates/\w+/specs/\w+\.antt)` \|", text, re.M)} - named)


def main():
    if sys.argv[1:] not in ([], ["--check"]):
        print(__doc__.split("\n\n")[1].strip(), file=sys.stderr)
        return 2
    page = PAGE.read_text()
    head, _, rest = page.partition(BEGIN)
    tail = rest.partition(END)[2]
    current, wrong = f"{head}{BEGIN}\n\n{generated()}\n\n{END}{tail}", []
    if "--check" not in sys.argv:
        PAGE.write_text(current)
    else:
        wrong = [f"docs/CONVERSATION.md: no section has {name}" for name in unexplained(current, MEANING.read_text())]
        if page != current:
            wrong.append("docs/PROVED.md isn't current: run dev/proved.py")
    print("\n".join([*wrong, f"{0 if wrong else 1} passed, {len(wrong)} failed"]))
    return 1 if wrong else 0


if __name__ == "__main__":
    sys.exit(main())
