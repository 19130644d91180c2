"""Reads the definitions of crates/*/specs/*.antt, with their comments and the names that they cite."""
import glob
import os
import re

TOP = os.path.dirname(os.path.dirname(os.path.abspath(__file__)))
NAME = r"[^\s(){}\[\],;.]+"
HEAD = re.compile(r"^(?P<shape>(?:abbrev |unfoldable )?(?:pub )?(?:record |data )?)(?P<name>" + NAME + r")(?= |$)")
WORD = re.compile(r"(?:[^\W\d]|◌)[\w◌\-']*|[^\s\w(){}\[\],;.]+")
EXAMPLE = "for example: "


class Definition:
    """A definition: where it stands, its comment, its example, its text, and whether it is a fact with a proof."""

    def __init__(self, module, name, shape, comment, lines):
        self.module = module
        self.name = name
        self.is_public = "pub" in shape
        self.is_fact = not re.search("abbrev|record|data", shape)
        self.words, self.example = split_comment(comment)
        self.lines = lines

    def constructors(self):
        """The constructors of a data type that have a comment of their own."""
        found, comment = [], []
        for line in self.lines[1:]:
            text = line.strip()
            if text.startswith("--"):
                comment.append(text)
                continue
            name = re.match(r"  (\S+) :", line)
            if name and comment:
                words, example = split_comment(comment)
                found.append((name.group(1), words, example))
            comment = []
        return found

    def code(self):
        """Its lines without comments."""
        return [line for line in self.lines if not line.strip().startswith("--")]


class Module:
    """A module of definitions: its crate, its name, its first comment, what it uses, and its definitions."""

    def __init__(self, path):
        self.path = os.path.relpath(path, TOP)
        self.crate = self.path.split("/")[1]
        self.name = os.path.basename(path)[: -len(".antt")]
        self.uses = {}
        self.definitions = []
        self.read(open(path, encoding="utf-8").read().split("\n"))

    def read(self, lines):
        at = 0
        head = []
        while at < len(lines) and lines[at].startswith("--"):
            head.append(lines[at])
            at += 1
        self.words = " ".join(line[2:].strip() for line in head)
        comment, block = [], []
        for line in lines[at:] + [""]:
            if line.startswith("use "):
                self.use(line)
            elif line and not line.startswith(" ") and not block:
                (comment if line.startswith("--") else block).append(line)
            elif block and (line == "" or line.startswith(" ")) or block and not line.startswith("--"):
                block.append(line)
            if line.startswith("--") and block and not line.startswith(" "):
                self.add(comment, block)
                comment, block = [line], []
        self.add(comment, block)

    def use(self, line):
        path, _, names = line[4:].partition(".{")
        for part in names.rstrip("}").split(","):
            name, _, other = part.strip().partition(" as ")
            self.uses[(other or name).strip()] = (path, name)

    def add(self, comment, block):
        """The definitions of a block of lines, of which the first has the comment."""
        parts = []
        for line in block:
            fresh = HEAD.match(line) if not line.startswith((" ", "infix")) else None
            named = fresh and re.search(r"pub|abbrev|record|data", fresh.group("shape"))
            signature = fresh and line[fresh.end():].startswith(" : ")
            if named or signature:
                parts.append((fresh, [line]))
            elif parts:
                parts[-1][1].append(line)
        for index, (head, lines) in enumerate(parts):
            while lines and lines[-1] == "":
                lines.pop()
            shape = head.group("shape")
            self.definitions.append(Definition(self, head.group("name"), shape, comment if index == 0 else [], lines))


def split_comment(comment):
    """What a comment says, and its example."""
    text = " ".join(line.strip()[2:].strip() for line in comment)
    words, _, example = text.partition(EXAMPLE)
    return words.strip(), example.strip()


def crates():
    """The crates that have definitions, each behind those that it stands on."""
    names = sorted(os.path.basename(os.path.dirname(path)) for path in glob.glob(TOP + "/crates/*/specs"))
    modules = {name: [Module(path) for path in sorted(glob.glob(f"{TOP}/crates/{name}/specs/*.antt"))
                      if not path.endswith("/Lib.antt")] for name in names}
    return in_order(modules, lambda name: {path.split(".")[1] for module in modules[name]
                                           for path, _ in module.uses.values()}), modules


def in_order(names, cited):
    """The names, each behind those that it cites, and else as they came."""
    done = []

    def visit(name, under):
        if name in done or name in under:
            return
        for other in sorted(cited(name)):
            if other in names and other != name:
                visit(other, under | {name})
        done.append(name)

    for name in names:
        visit(name, frozenset())
    return done


def reading_order(modules):
    """A crate's modules, each behind those that it uses."""
    table = {module.name: module for module in modules}
    crate = modules[0].crate if modules else ""
    prefix = f"Rattle.{crate}.specs."

    def cited(name):
        return {path[len(prefix):] for path, _ in table[name].uses.values() if path.startswith(prefix)}

    return [table[name] for name in in_order(list(table), cited)]
