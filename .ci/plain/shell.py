"""The commands: what each wants of its paths, for what it is refused, what it does, and what it prints."""
from queries import directories_of, parse_query, printed, terms_of, with_directories
from tree import DIRECTORIES, MOST_NAMES, Tree
from words import (LineWords, Refused, escaped, has_long_name, has_term, is_bad_path, joined, path_text, unescaped)

# What stands behind a command: P a path, p and r paths that may be left out, which then are where the session stands and
# the root, L the target of a symbolic link, T a text, Q a query, S the name of a space, N a length, K a number of steps.
SHAPES = {
    b"mkdir": "P", b"rmdir": "P", b"write": "PT", b"put": "PN", b"cat": "P", b"ls": "p", b"cd": "r", b"pwd": "",
    b"mv": "PP", b"rm": "P", b"ln": "LP", b"readlink": "P", b"smkdir": "PQ", b"setq": "PQ", b"unq": "P",
    b"query": "P", b"sls": "p", b"sln": "PP", b"srm": "PP", b"sforget": "PP", b"find": "Q", b"smount": "PS",
    b"ssync": "P", b"sumount": "P", b"index": "", b"tick": "K", b"counts": "", b"checkpoint": "",
}
COUNTED = (("files", "f"), ("documents", "o"), ("directories", "d"), ("semantic", "s"), ("mounts", "m"),
           ("symbolic", "l"))


class Shell(Tree):
    """A tree with its sessions and spaces. A space is a dictionary of its documents' texts by name."""

    def __init__(self):
        super().__init__()
        self.open({}, 0)

    def open(self, spaces, tick):
        """Begins a run. Sessions begin in the root, and `tick` files are indexed behind each reply."""
        self.spaces, self.tick, self.sessions = spaces, tick, {}

    def play(self, script):
        """The replies to a script."""
        replies, at = [], 0
        while at < len(script):
            end = script.find(b"\n", at)
            line = script[at:] if end < 0 else script[at:end]
            at = len(script) if end < 0 else end + 1
            if line.strip(b" ") == b"" or line.startswith(b"#"):
                continue
            self.behind, self.taken = script[at:], 0
            try:
                replies += [*(self.command(line) or []), b"ok"]
            except Refused as refused:
                replies.append(b"no " + refused.line)
            at += self.taken
            for _step in range(self.tick):
                self.index_one()
        return b"".join(reply + b"\n" for reply in replies)

    def command(self, line):
        """Carries out a line. Its data lines are given, if it has some."""
        if len(line) > 65_536:
            raise Refused("limit", b"line")
        words = LineWords(line)
        session = words.take_session()
        name = words.take()
        if name not in SHAPES:
            raise Refused("bad-line")
        given = [(kind, self.take_argument(words, kind)) for kind in SHAPES[name]]
        words.end()
        if name == b"put":
            given[1] = ("T", self.take_behind(given[1][1]))
        self.check_given(given)
        self.session = session
        base = self.names_to(self.sessions.get(session, 0))
        arguments = [self.understood(kind, word, base) for kind, word in given]
        return getattr(self, "do_" + name.decode())(*arguments)

    def take_argument(self, words, kind):
        takers = {"P": words.take, "L": words.take, "p": words.take_if_any, "r": words.take_if_any,
                  "S": words.take_outer_name}
        if kind == "N":
            return words.take_number(9_999_999_999)
        if kind == "K":
            return words.take_number(65_536)
        if kind == "T":
            return unescaped(words.take_rest())
        if kind == "Q":
            return words.take_rest()
        return takers[kind]()

    def take_behind(self, length):
        """The bytes behind a line."""
        self.taken = min(length, len(self.behind))
        if length > len(self.behind):
            raise Refused("short-put")
        return self.behind[:length]

    def check_given(self, given):
        """Refuses by the words alone."""
        paths = [word for kind, word in given if kind in "PprL" and word is not None]
        if any(map(is_bad_path, paths)):
            raise Refused("bad-name")
        if any(map(has_long_name, paths)):
            raise Refused("limit", b"name")
        for kind, word in given:
            if kind == "L" and len(word) > 1_024:
                raise Refused("limit", b"target")
            if kind == "T" and len(word) > 1_048_576:
                raise Refused("limit", b"text")
            if kind == "Q":
                self.check_query(word)

    def check_query(self, text):
        if len(text) > 1_024:
            raise Refused("limit", b"query")
        query, terms, nesting = parse_query(text)
        if any(map(has_long_name, directories_of(query))):
            raise Refused("limit", b"name")
        if terms > 64:
            raise Refused("limit", b"terms")
        if nesting > 32:
            raise Refused("limit", b"nesting")

    def understood(self, kind, word, base):
        """What a command gets for a word: for a path its names from the root on."""
        if kind == "Q":
            return parse_query(word)[0]
        if kind in "Ppr" and word is not None:
            return joined(base, word)
        if kind == "p":
            return base
        if kind == "r":
            return []
        return word

    # What commands want of their paths.

    def at_entry(self, names, follow=True):
        found = self.look(names, follow)
        if isinstance(found, tuple):
            raise Refused("no-path", path_text(self.names_to(found[0]) + [found[1]]))
        return self.entries[found]

    def at_directory(self, names):
        entry = self.at_entry(names)
        if entry.kind not in DIRECTORIES:
            raise Refused("not-dir", self.path(entry.number))
        return entry

    def at_holder(self, names):
        entry = self.at_directory(names)
        if entry.kind == "m":
            raise Refused("in-mount", self.path(entry.number))
        return entry

    def at_own(self, names):
        entry = self.at_entry(names, False)
        if entry.kind == "o":
            raise Refused("in-mount", self.path(entry.parent))
        return entry

    def at_slot(self, names, follow=True):
        """An entry, or a directory with the name that it hasn't got."""
        found = self.look(names, follow)
        if isinstance(found, tuple):
            mount = found[0]
            is_in_mount = self.entries[mount].kind == "m"
        else:
            mount = self.entries[found].parent
            is_in_mount = self.entries[found].kind == "o"
        if is_in_mount:
            raise Refused("in-mount", self.path(mount))
        return found

    def at_free(self, found):
        """The directory and the name of a slot in which nothing stands."""
        if not isinstance(found, tuple):
            raise Refused("exists", self.path(found))
        return found

    def placed(self, query):
        """The query with its directories by number."""
        return with_directories(query, lambda word: self.at_directory(joined([], word)).number)

    # For what they are refused.

    def refuse_root(self, entry):
        if entry.number == 0:
            raise Refused("root")

    def refuse_directory(self, entry):
        if entry.kind in DIRECTORIES:
            raise Refused("not-file", self.path(entry.number))

    def refuse_long_path(self, names):
        if names > MOST_NAMES:
            raise Refused("limit", b"path")

    def refuse_long_child(self, directory, below=0):
        self.refuse_long_path(len(self.names_to(directory)) + 1 + below)

    def refuse_plain(self, entry):
        if entry.kind != "s":
            raise Refused("not-semantic", self.path(entry.number))

    def refuse_other_than_mount(self, entry):
        if entry.kind != "m":
            raise Refused("not-mount", self.path(entry.number))

    def refuse_in_use(self, entry):
        """Refuses where a query names a directory, it is linked, or a session stands in it."""
        number = entry.number
        users = [self.path(other) for other in self.numbers("s")
                 if number in directories_of(self.entries[other].query) or number in self.entries[other].permanent]
        if users:
            raise Refused("referenced", min(users))
        visitors = [session for session, directory in self.sessions.items() if directory == number]
        if visitors:
            raise Refused("busy", min(visitors))

    def refuse_cycle(self, directory, others):
        for other in others:
            if self.reaches(other, directory):
                raise Refused("cycle", self.path(other))

    # Spaces.

    def documents_in(self, space):
        if space not in self.spaces:
            raise Refused("no-space", space)
        return self.spaces[space]

    def answer(self, mount, term):
        """The numbers of a mount's documents that have a term."""
        texts = self.documents_in(mount.space)
        return {entry.number for entry in self.children(mount.number)
                if entry.name in texts and has_term(texts[entry.name], term)}

    def asked(self, query):
        """The answers to a query's terms that mounts don't keep."""
        mounts = [self.entries[number] for number in self.numbers("m")]
        return {(mount.number, term): self.answer(mount, term)
                for mount in mounts for term in terms_of(query) if term not in mount.answers}

    def keep(self, asked):
        for (mount, term), numbers in asked.items():
            self.entries[mount].answers[term] = numbers

    def ask_all(self, mount):
        mount.answers = {term: self.answer(mount, term) for term in self.terms_in_use()}

    # The commands.

    def do_mkdir(self, path):
        directory, name = self.at_free(self.at_slot(path))
        self.refuse_long_child(directory)
        self.add("d", directory, name)

    def do_rmdir(self, path):
        entry = self.at_holder(path)
        self.refuse_root(entry)
        if self.children(entry.number):
            raise Refused("not-empty", self.path(entry.number))
        self.refuse_in_use(entry)
        self.remove(entry.number)

    def do_write(self, path, text):
        found = self.at_slot(path)
        if isinstance(found, tuple):
            self.refuse_long_child(found[0])
            entry = self.add("f", *found)
        else:
            entry = self.entries[found]
            self.refuse_directory(entry)
        entry.text, entry.is_dirty = text, True

    do_put = do_write

    def do_cat(self, path):
        entry = self.at_entry(path)
        self.refuse_directory(entry)
        if entry.kind == "f":
            return [b"= " + escaped(entry.text)]
        texts = self.documents_in(self.entries[entry.parent].space)
        if entry.name not in texts:
            raise Refused("gone", self.path(entry.number))
        return [b"= " + escaped(texts[entry.name])]

    def do_ls(self, path):
        children = self.children(self.at_directory(path).number)
        return [child.kind.encode() + b" " + child.name for child in sorted(children, key=lambda child: child.name)]

    def do_cd(self, path):
        self.sessions[self.session] = self.at_directory(path).number

    def do_pwd(self):
        return [b"= " + self.path(self.sessions.get(self.session, 0))]

    def do_mv(self, old, new):
        entry = self.at_own(old)
        found = self.at_slot(new, False)
        self.refuse_root(entry)
        directory, name = self.at_free(found)
        if self.is_inside(directory, entry.number):
            raise Refused("under", self.path(entry.number))
        deeper = len(self.names_to(directory)) + 1 - len(self.names_to(entry.number))
        for other in self.entries.values():
            if self.is_inside(other.number, entry.number):
                self.refuse_long_path(len(self.names_to(other.number)) + deeper + (other.kind == "m"))
        if entry.kind == "s":
            self.refuse_cycle(entry.number, [directory])
        entry.parent, entry.name = directory, name

    def do_rm(self, path):
        entry = self.at_own(path)
        self.refuse_root(entry)
        self.refuse_directory(entry)
        self.remove(entry.number)

    def do_ln(self, target, path):
        directory, name = self.at_free(self.at_slot(path, False))
        self.refuse_long_child(directory)
        self.add("l", directory, name).target = target

    def do_readlink(self, path):
        entry = self.at_entry(path, False)
        if entry.kind != "l":
            raise Refused("not-link", self.path(entry.number))
        return [b"= " + entry.target]

    def do_smkdir(self, path, query):
        found = self.at_slot(path)
        query = self.placed(query)
        directory, name = self.at_free(found)
        self.refuse_long_child(directory)
        asked = self.asked(query)
        self.add("s", directory, name).query = query
        self.keep(asked)

    def do_setq(self, path, query):
        entry = self.at_holder(path)
        query = self.placed(query)
        self.refuse_root(entry)
        self.refuse_cycle(entry.number, [entry.parent] + directories_of(query))
        asked = self.asked(query)
        entry.kind, entry.query = "s", query
        self.keep(asked)

    def do_unq(self, path):
        entry = self.at_directory(path)
        self.refuse_plain(entry)
        entry.kind, entry.query, entry.permanent, entry.prohibited = "d", None, set(), set()

    def do_query(self, path):
        entry = self.at_directory(path)
        self.refuse_plain(entry)
        return [b"= " + printed(entry.query, self.path)]

    def do_sls(self, path):
        entry = self.at_directory(path)
        self.refuse_plain(entry)
        _provide, found = self.provided()
        letters = {number: b"t " for number in found[entry.number]}
        letters.update((number, b"p ") for number in entry.permanent)
        letters.update((number, b"x ") for number in entry.prohibited)
        return [letters[number] + self.path(number) for number in sorted(letters)]

    def do_sln(self, path, directory):
        entry, semantic = self.at_entry(path), self.at_directory(directory)
        self.refuse_plain(semantic)
        if entry.number in semantic.permanent:
            raise Refused("already", self.path(entry.number))
        if entry.kind in DIRECTORIES:
            self.refuse_cycle(semantic.number, [entry.number])
        semantic.prohibited.discard(entry.number)
        semantic.permanent.add(entry.number)

    def do_srm(self, path, directory):
        entry, semantic = self.at_entry(path), self.at_directory(directory)
        self.refuse_directory(entry)
        self.refuse_plain(semantic)
        _provide, found = self.provided()
        if entry.number not in semantic.permanent | found[semantic.number]:
            raise Refused("not-linked", self.path(entry.number))
        semantic.permanent.discard(entry.number)
        semantic.prohibited.add(entry.number)

    def do_sforget(self, path, directory):
        entry, semantic = self.at_entry(path), self.at_directory(directory)
        self.refuse_plain(semantic)
        if entry.number not in semantic.permanent | semantic.prohibited:
            raise Refused("no-mark", self.path(entry.number))
        semantic.permanent.discard(entry.number)
        semantic.prohibited.discard(entry.number)

    def do_find(self, query):
        query = self.placed(query)
        asked = self.asked(query)
        provide, _found = self.provided()
        return [self.entries[item].kind.encode() + b" " + self.path(item) for item in self.numbers("fo")
                if self.is_judged(item) and self.holds(query, item, provide, asked)]

    def do_smount(self, path, space):
        directory, name = self.at_free(self.at_slot(path))
        self.refuse_long_child(directory, 1)
        texts = self.documents_in(space)
        mount = self.add("m", directory, name)
        mount.space = space
        for document in sorted(texts):
            self.add("o", mount.number, document)
        self.ask_all(mount)

    def do_ssync(self, path):
        mount = self.at_directory(path)
        self.refuse_other_than_mount(mount)
        texts = self.documents_in(mount.space)
        for child in self.children(mount.number):
            if child.name not in texts:
                self.remove(child.number)
        for document in sorted(texts):
            if self.child(mount.number, document) is None:
                self.add("o", mount.number, document)
        self.ask_all(mount)

    def do_sumount(self, path):
        mount = self.at_directory(path)
        self.refuse_other_than_mount(mount)
        self.refuse_in_use(mount)
        for child in self.children(mount.number):
            self.remove(child.number)
        self.remove(mount.number)

    def do_index(self):
        while self.index_one():
            pass

    def do_tick(self, steps):
        for _step in range(steps):
            self.index_one()

    def do_counts(self):
        _provide, found = self.provided()
        semantic = [self.entries[number] for number in self.numbers("s")]
        counts = [(word, len(self.numbers(kind)) - (kind == "d")) for word, kind in COUNTED]
        counts += [
            ("transient", sum(map(len, found.values()))),
            ("permanent", sum(len(entry.permanent) for entry in semantic)),
            ("prohibited", sum(len(entry.prohibited) for entry in semantic)),
            ("dirty", sum(entry.is_dirty for entry in self.entries.values())),
            ("next", self.next),
        ]
        return [b"= " + " ".join(f"{word} {count}" for word, count in counts).encode()]

    def do_checkpoint(self):
        """Nothing that a script can see changes."""
