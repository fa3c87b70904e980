"""The tree: entries by number, look-ups, and links, which are found anew from nothing whenever they are asked for."""
from queries import directories_of, in_order, terms_of
from words import Refused, has_term, joined, path_text

DIRECTORIES = ("d", "s", "m")
ITEMS = ("f", "o")
MOST_LINKS = 16
MOST_NAMES = 64


class Entry:
    """An entry of any kind. The kind is its letter in a listing."""

    def __init__(self, number, kind, parent, name):
        self.number, self.kind, self.parent, self.name = number, kind, parent, name
        # Of a file: its text, the text by which it was last indexed, and whether that wants doing again.
        self.text, self.shown, self.is_dirty = b"", None, False
        # Of a symbolic link.
        self.target = b""
        # Of a semantic directory: its query, and what the user added and removed.
        self.query, self.permanent, self.prohibited = None, set(), set()
        # Of a mount: its space, and its documents that have a term, for each term that is kept.
        self.space, self.answers = b"", {}


class Tree:
    def __init__(self):
        self.entries = {0: Entry(0, "d", 0, b"")}
        self.next = 1

    def numbers(self, kinds):
        return [number for number in sorted(self.entries) if self.entries[number].kind in kinds]

    def children(self, directory):
        return [entry for entry in self.entries.values() if entry.number and entry.parent == directory]

    def child(self, directory, name):
        return next((entry for entry in self.children(directory) if entry.name == name), None)

    def names_to(self, number):
        names = []
        while number:
            names.insert(0, self.entries[number].name)
            number = self.entries[number].parent
        return names

    def path(self, number):
        return path_text(self.names_to(number))

    def is_inside(self, number, top):
        """Whether an entry is another one or below it."""
        while number not in (top, 0):
            number = self.entries[number].parent
        return number == top

    # Changes.

    def add(self, kind, directory, name):
        entry = Entry(self.next, kind, directory, name)
        self.entries[entry.number] = entry
        self.next += 1
        return entry

    def remove(self, number):
        """Removes an entry, and all that was said of it."""
        del self.entries[number]
        for entry in self.entries.values():
            entry.permanent.discard(number)
            entry.prohibited.discard(number)

    def index_one(self):
        """Indexes the file that was waiting with the least number, if one is."""
        waiting = [number for number in sorted(self.entries) if self.entries[number].is_dirty]
        if waiting:
            entry = self.entries[waiting[0]]
            entry.shown, entry.is_dirty = entry.text, False
        return bool(waiting)

    # Look-ups.

    def look(self, names, follow):
        """The number to which names lead from the root, or the directory and the name that it hasn't got."""
        given, links = names, 0
        while True:
            found, target = self.walk(names, follow)
            if target is None:
                return found
            links += 1
            if links > MOST_LINKS:
                raise Refused("loop", path_text(given))
            names = target

    def walk(self, names, follow):
        """Walks to the end, or to the first symbolic link that is followed: then the names are given by which it leads."""
        here = 0
        for place, name in enumerate(names):
            is_last = place == len(names) - 1
            entry = self.child(here, name)
            if entry is None and is_last:
                return (here, name), None
            if entry is None:
                raise Refused("no-path", path_text(self.names_to(here) + [name]))
            if entry.kind == "l" and (follow or not is_last):
                return None, joined(self.names_to(here), entry.target) + names[place + 1:]
            if not is_last and entry.kind not in DIRECTORIES:
                raise Refused("not-dir", self.path(entry.number))
            here = entry.number
        return here, None

    # What directories provide and find.

    def provided(self):
        """For each directory the items that it provides; for each semantic one the items that its query finds.

        What is found is worked out anew as often as there are semantic directories, or until nothing is new."""
        items = self.numbers(ITEMS)
        stored = {top: {item for item in items if item != top and self.is_inside(item, top)}
                  for top in self.numbers(DIRECTORIES)}
        semantic = self.numbers("s")
        found = {number: set() for number in semantic}
        lent = {number: set() for number in semantic}
        for _round in range(len(semantic) + 1):
            before = found, lent
            provide = {number: stored[number] | self.beside(number, found, lent) for number in stored}
            found = {number: self.found_by(number, provide) for number in semantic}
            lent = {number: set().union(*(provide[other] for other in self.linked_directories(number)))
                    for number in semantic}
            if (found, lent) == before:
                break
        return provide, found

    def beside(self, number, found, lent):
        """What a semantic directory provides beside what is stored in it."""
        if number not in found:
            return set()
        added = {item for item in self.entries[number].permanent if self.entries[item].kind in ITEMS}
        return found[number] | lent[number] | added

    def linked_directories(self, number):
        return [other for other in sorted(self.entries[number].permanent)
                if self.entries[other].kind in DIRECTORIES]

    def found_by(self, number, provide):
        entry = self.entries[number]
        told = entry.permanent | entry.prohibited
        return {item for item in provide[entry.parent] - told
                if self.is_judged(item) and self.holds(entry.query, item, provide, {})}

    def is_judged(self, item):
        return self.entries[item].kind == "o" or self.entries[item].shown is not None

    def holds(self, query, item, provide, asked):
        """Whether a query holds of an item. `asked` has answers that no mount keeps, by mount and term."""
        if query[0] == "dir":
            return item in provide[query[1]]
        if query[0] in ("word", "prefix"):
            return self.has(item, query, asked)
        parts = [self.holds(part, item, provide, asked) for part in query[1:]]
        if query[0] == "NOT":
            return not parts[0]
        return all(parts) if query[0] == "AND" else any(parts)

    def has(self, item, term, asked):
        entry = self.entries[item]
        if entry.kind == "f":
            return entry.shown is not None and has_term(entry.shown, term)
        kept = self.entries[entry.parent].answers
        return item in kept.get(term, asked.get((entry.parent, term), ()))

    # What depends on what.

    def edges(self, number):
        entry = self.entries[number]
        if entry.kind != "s":
            return []
        return [entry.parent] + directories_of(entry.query) + self.linked_directories(number)

    def reaches(self, start, end):
        """Whether a directory is another one, or depends on it over any number of steps."""
        seen, waiting = set(), [start]
        while waiting:
            number = waiting.pop()
            if number not in seen:
                seen.add(number)
                waiting += self.edges(number)
        return end in seen

    def terms_in_use(self):
        return in_order({term for number in self.numbers("s") for term in terms_of(self.entries[number].query)})
