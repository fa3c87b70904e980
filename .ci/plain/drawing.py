"""Scripts that are drawn by chance, with an eye on what stands in the tree, so that most of their commands succeed."""

WORDS = ["w0", "w1", "w2", "W02", "w10", "x\xe9", "y"]
NAMES = ["a", "b", "c", "d e", "e}", "f\\", "longlonglong"]
ODD_PATHS = ["", "/\x01", "/" + "n" * 256, "/" + "n" * 255, "//", "/.", "..", "/a//b/"]
ODD_TEXTS = ["\\n", "\\t", "\\\\", "\\x41", "\\x7f", "\\x00", "\\q", "\\x4", " ", "-w1", "w2w3"]
ODD_LINES = ["fly", "", "  ", "# x", " # x", "mkdir", "pwd x", '"pwd"', '"ls" "/', "@ pwd", "@bob", "ls /a b c", "index\r",
             "sumount", "tick 65537", "put /a 00"]
ODD_BITS = [" ", ")", "(", "*", "AND", "NOT", "{", "\\", "-", ""]
# How often each command is drawn.
WEIGHTS = {"mkdir": 8, "rmdir": 3, "write": 14, "put": 2, "cat": 3, "ls": 3, "cd": 3, "pwd": 1, "mv": 8, "rm": 4, "ln": 3,
           "readlink": 1, "smkdir": 9, "setq": 5, "unq": 2, "query": 3, "sls": 12, "sln": 8, "srm": 6, "sforget": 4,
           "find": 5, "smount": 3, "ssync": 3, "sumount": 1, "index": 5, "tick": 4, "counts": 2, "checkpoint": 1, "odd": 1}
# The kinds of what a command's path mostly leads to.
KINDS = {"rmdir": "ds", "cat": "fo", "rm": "fl", "readlink": "l", "unq": "s", "query": "s", "ssync": "m", "sumount": "m",
         "ls": "dsm", "cd": "dsm", "sls": "s", "setq": "ds", "mv": "fdsml"}


class Drawer:
    """Draws lines for a shell of the model."""

    def __init__(self, chance, shell):
        self.chance, self.shell = chance, shell

    def often(self, part):
        return self.chance.random() < part

    def some(self, least, most):
        return range(self.chance.randint(least, most))

    # Paths.

    def path_of(self, number):
        return self.shell.path(number).decode("latin-1")

    def any_path(self):
        if self.often(0.1):
            return self.chance.choice(ODD_PATHS)
        names = [self.chance.choice(NAMES + ["..", ".", ""]) for _ in self.some(1, 4)]
        return self.chance.choice(["/", ""]) + "/".join(names)

    def path_to(self, kinds):
        """A path, mostly to an entry of one of these kinds."""
        numbers = self.shell.numbers(kinds if self.often(0.9) else "fdslmo")
        links = self.shell.numbers("l")
        if not numbers or self.often(0.1):
            return self.any_path()
        if links and self.often(0.1):
            return self.path_of(self.chance.choice(links)) + self.chance.choice(["", "/a"])
        return self.path_of(self.chance.choice(numbers))

    def free_path(self):
        """A path, mostly one at which nothing stands."""
        if self.often(0.1):
            return self.any_path()
        directory = self.path_of(self.chance.choice(self.shell.numbers("ds")))
        return directory.rstrip("/") + "/" + self.chance.choice(NAMES)

    def spelled(self, path):
        if path == "" or " " in path or path.startswith('"') or self.often(0.05):
            return '"' + path.replace("\\", "\\\\").replace('"', '\\"') + '"'
        return path

    # Texts and queries.

    def text(self):
        text = " ".join(self.chance.choice(WORDS) for _ in self.some(0, 4))
        return text + self.chance.choice(ODD_TEXTS) if self.often(0.1) else text

    def query(self):
        query = self.part_of_query(0)
        if self.often(0.06):
            at = self.chance.randint(0, len(query))
            query = query[:at] + self.chance.choice(ODD_BITS) + query[at + self.chance.randint(0, 2):]
        return query

    def part_of_query(self, depth):
        drawn = self.chance.random()
        if depth > 3 or drawn < 0.4:
            return self.chance.choice(WORDS) + self.chance.choice(["", "", "*"])
        if drawn < 0.55:
            return self.directory_term(self.path_to("ds" if self.often(0.9) else "dsm"))
        part = self.part_of_query(depth + 1)
        if drawn < 0.65:
            return "NOT " + part
        if drawn < 0.75:
            return "(" + part + ")"
        return part + self.chance.choice([" AND ", " OR ", "  OR "]) + self.part_of_query(depth + 1)

    def directory_term(self, path):
        return "{/" + path.lstrip("/").replace("\\", "\\\\").replace("}", "\\}") + "}"

    # What is near to a refusal.

    def nested(self):
        """Directories with a directory in them."""
        return [(self.shell.entries[number].parent, number) for number in self.shell.numbers("ds")
                if self.shell.entries[number].parent]

    def named(self):
        """Directories on which semantic ones depend, other than by their place, and in which nothing stands."""
        named = {number for semantic in self.shell.numbers("s") for number in self.shell.edges(semantic)[1:]}
        return sorted(number for number in named if not self.shell.children(number))

    def leaning(self):
        """Semantic directories with others on which they depend."""
        semantic = self.shell.numbers("s")
        return [(number, other) for number in semantic for other in self.shell.edges(number) if other in semantic]

    def documents(self):
        """The documents of a space."""
        names = self.chance.sample(["one", "two", "a", "b c", "z"], self.chance.randint(0, 4))
        return {name.encode(): " ".join(self.chance.choice(WORDS) for _ in self.some(0, 4)).encode("latin-1")
                for name in names}

    # Lines.

    def line(self):
        command = self.chance.choices(list(WEIGHTS), list(WEIGHTS.values()))[0]
        line = self.chance.choice(ODD_LINES) if command == "odd" else f"{command}{self.behind(command)}"
        if self.often(0.12):
            line = "@" + self.chance.choice(["bob", "ann", "main", "b b"]) + self.chance.choice([" ", "  "]) + line
        return "  " + line if self.often(0.03) else line

    def behind(self, command):
        """What stands behind a command."""
        if command == "setq" and self.often(0.3) and self.nested():
            outer, inner = self.chance.choice(self.nested())
            return f" {self.spelled(self.path_of(outer))} {self.directory_term(self.path_of(inner))}"
        if command == "rmdir" and self.often(0.4) and self.named():
            return " " + self.spelled(self.path_of(self.chance.choice(self.named())))
        if command in ("sln", "srm", "sforget"):
            return " " + " ".join(map(self.spelled, self.marked(command)))
        if command == "tick":
            return self.chance.choice([" 0", " 1", " 2", " 3", " 01"])
        if command in ("ls", "cd", "sls") and self.often(0.1):
            return ""
        parts = [self.spelled(self.path_to(KINDS[command]))] if command in KINDS else []
        if command in ("mkdir", "write", "put", "smkdir", "smount"):
            parts.append(self.spelled(self.path_to("f") if command == "write" and self.often(0.4) else self.free_path()))
        if command == "ln":
            parts.append(self.spelled(self.path_to("fdsmlo")))
        if command in ("ln", "mv"):
            parts.append(self.spelled(self.free_path()))
        if command in ("smkdir", "setq", "find"):
            parts.append(self.query())
        if command == "smount":
            parts.append(self.chance.choice(["lib", "lib", "other", "missing"]))
        if command == "write":
            parts.append(self.text())
        if command == "put":
            text = self.text().replace("\\", "\n")
            parts.append(f"{len(text)}\n{text}")
        return "".join(" " + part for part in parts)

    def marked(self, command):
        """The two paths of a command on marks, mostly of an item and a directory where it can be carried out."""
        semantic = self.shell.numbers("s")
        leaning = self.leaning()
        if command == "sln" and leaning and self.often(0.15):
            return tuple(map(self.path_of, self.chance.choice(leaning)))
        if command != "sln" and semantic and self.often(0.7):
            directory = self.shell.entries[self.chance.choice(semantic)]
            others = directory.prohibited if command == "sforget" else self.shell.provided()[1][directory.number]
            numbers = sorted(directory.permanent | others)
            if numbers:
                return self.path_of(self.chance.choice(numbers)), self.path_of(directory.number)
        kinds = "fo" if command == "srm" or self.often(0.7) else "dsm"
        return self.path_to(kinds), self.path_to("s")

    def many(self):
        """Lines that make a tree with so many semantic directories that files are judged by their words."""
        for _ in self.some(3, 12):
            yield "mkdir " + self.spelled(self.free_path())
        for _ in self.some(10, 40):
            yield f"write {self.spelled(self.free_path())} {self.text()}"
        yield self.chance.choice(["index", "counts"])
        for _ in self.some(15, 40):
            yield f"smkdir {self.spelled(self.free_path())} {self.query()}"
        yield self.chance.choice(["index", "counts"])

    def listings(self):
        """Lines that print what there is."""
        for number in self.shell.numbers("s"):
            yield "sls " + self.spelled(self.path_of(number))
            yield "query " + self.spelled(self.path_of(number))
        for number in self.shell.numbers("f"):
            yield "cat " + self.spelled(self.path_of(number))
        yield "counts"
