"""Queries: how they are read and printed.

A query is a tuple: ("word", letters), ("prefix", letters), ("dir", where), ("NOT", query), ("AND", left, right) or
("OR", left, right)."""
from words import WORD_BYTES, Refused, lower_case

LEAVES = ("word", "prefix", "dir")


class Scanner:
    """Takes a query apart from the left to the right. It stops at the first byte with which no query goes on."""

    def __init__(self, text):
        self.text, self.at = text, 0
        self.tokens, self.depth = [], 0
        self.wants_operand = True

    def fail(self, at):
        raise Refused("bad-query", b"%d" % (at + 1))

    def run_end(self):
        end = self.at
        while end < len(self.text) and self.text[end] in WORD_BYTES:
            end += 1
        return end

    def scan(self):
        while self.at < len(self.text):
            byte = self.text[self.at:self.at + 1]
            if byte == b" ":
                self.at += 1
            elif self.wants_operand:
                self.scan_operand(byte)
            else:
                self.scan_behind_operand(byte)
        if self.wants_operand or self.depth:
            self.fail(len(self.text))
        return self.tokens

    def scan_operand(self, byte):
        if byte == b"(":
            self.tokens.append(("(",))
            self.depth += 1
            self.at += 1
        elif byte == b"{":
            self.scan_directory()
        elif byte[0] in WORD_BYTES:
            self.scan_word()
        else:
            self.fail(self.at)

    def scan_word(self):
        end = self.run_end()
        run = self.text[self.at:end]
        if self.text[end:end + 1] == b"*":
            self.tokens.append(("prefix", lower_case(run)))
            self.wants_operand = False
            end += 1
        elif run == b"NOT":
            self.tokens.append(("NOT",))
        elif run in (b"AND", b"OR"):
            self.fail(end)
        else:
            self.tokens.append(("word", lower_case(run)))
            self.wants_operand = False
        self.at = end

    def scan_directory(self):
        path, at = bytearray(), self.at + 1
        if self.text[at:at + 1] != b"/":
            self.fail(at)
        while self.text[at:at + 1] != b"}":
            if self.text[at:at + 1] == b"\\":
                at += 1
                if self.text[at:at + 1] not in (b"}", b"\\"):
                    self.fail(at)
            if at >= len(self.text) or self.text[at] < 32 or self.text[at] == 127:
                self.fail(at)
            path.append(self.text[at])
            at += 1
        self.tokens.append(("dir", bytes(path)))
        self.wants_operand = False
        self.at = at + 1

    def scan_behind_operand(self, byte):
        if byte == b")" and self.depth:
            self.tokens.append((")",))
            self.depth -= 1
            self.at += 1
            return
        end = self.run_end()
        for last in range(self.at, end):
            run = self.text[self.at:last + 1]
            if not b"AND".startswith(run) and not b"OR".startswith(run):
                self.fail(last)
        run = self.text[self.at:end]
        if run not in (b"AND", b"OR") or self.text[end:end + 1] == b"*":
            self.fail(end)
        self.tokens.append((run.decode(),))
        self.wants_operand = True
        self.at = end


class Parser:
    """Makes a query of its tokens, and notes how many terms it has, and how deep the deepest of them stands."""

    def __init__(self, tokens):
        self.tokens, self.at = tokens, 0
        self.terms, self.nesting = 0, 0

    def is_next(self, token):
        return self.tokens[self.at:self.at + 1] == [(token,)]

    def parse_row(self, operator, parse_part, depth):
        query = parse_part(depth)
        while self.is_next(operator):
            self.at += 1
            query = (operator, query, parse_part(depth))
        return query

    def parse_or(self, depth):
        return self.parse_row("OR", self.parse_and, depth)

    def parse_and(self, depth):
        return self.parse_row("AND", self.parse_not, depth)

    def parse_not(self, depth):
        token = self.tokens[self.at]
        self.at += 1
        if token == ("NOT",):
            return ("NOT", self.parse_not(depth + 1))
        if token == ("(",):
            query = self.parse_or(depth + 1)
            self.at += 1
            return query
        self.terms += 1
        self.nesting = max(self.nesting, depth)
        return token


def parse_query(text):
    parser = Parser(Scanner(text).scan())
    query = parser.parse_or(0)
    return query, parser.terms, parser.nesting


def leaves_of(query):
    if query[0] in LEAVES:
        return [query]
    return [leaf for part in query[1:] for leaf in leaves_of(part)]


def in_order(terms):
    """Terms by their letters, a word before the beginning of words of the same letters."""
    return sorted(terms, key=lambda term: (term[1], term[0] == "prefix"))


def terms_of(query):
    return in_order({leaf for leaf in leaves_of(query) if leaf[0] != "dir"})


def directories_of(query):
    return [leaf[1] for leaf in leaves_of(query) if leaf[0] == "dir"]


def with_directories(query, place):
    """The query with each directory replaced by what `place` gives for it, from the left to the right."""
    if query[0] == "dir":
        return ("dir", place(query[1]))
    if query[0] in LEAVES:
        return query
    return (query[0],) + tuple(with_directories(part, place) for part in query[1:])


def printed(query, path_of):
    """The query with the parentheses that it needs, and no others."""
    kind = query[0]
    if kind == "word":
        return query[1]
    if kind == "prefix":
        return query[1] + b"*"
    if kind == "dir":
        return b"{" + path_of(query[1]).replace(b"\\", b"\\\\").replace(b"}", b"\\}") + b"}"
    parts = [printed(part, path_of) for part in query[1:]]
    for place, part in enumerate(query[1:]):
        binds_less = kind in ("NOT", "AND") and part[0] == "OR" or kind == "NOT" and part[0] == "AND"
        if binds_less or place == 1 and part[0] == kind:
            parts[place] = b"(" + parts[place] + b")"
    if kind == "NOT":
        return b"NOT " + parts[0]
    return parts[0] + b" " + kind.encode() + b" " + parts[1]
