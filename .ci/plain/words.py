"""Words of texts and words of lines, as the manual has them."""
import functools
import re

WORD_BYTES = frozenset(
    b"abcdefghijklmnopqrstuvwxyzABCDEFGHIJKLMNOPQRSTUVWXYZ0123456789") | frozenset(range(128, 256))
OUTER_NAME = re.compile(rb"[A-Za-z0-9_-]{1,32}")
ESCAPES = {b"n": b"\n", b"t": b"\t", b"\\": b"\\"}


class Refused(Exception):
    """The cause for which a command is refused, with its detail."""

    def __init__(self, cause, detail=None):
        super().__init__(cause)
        self.line = cause.encode() + (b"" if detail is None else b" " + detail)


def lower_case(run):
    return bytes(byte + 32 if 65 <= byte <= 90 else byte for byte in run)


@functools.lru_cache(maxsize=None)
def words_of(text):
    """The words of a text: its longest runs of word bytes, in lower case."""
    words, run = set(), bytearray()
    for byte in text + b" ":
        if byte in WORD_BYTES:
            run.append(byte)
        elif run:
            words.add(lower_case(run))
            run = bytearray()
    return words


def has_term(text, term):
    kind, letters = term
    if kind == "word":
        return letters in words_of(text)
    return any(word.startswith(letters) for word in words_of(text))


class LineWords:
    """The words of a line, taken one after the other."""

    def __init__(self, line):
        self.line, self.at = line, 0

    def skip_spaces(self):
        while self.line[self.at:self.at + 1] == b" ":
            self.at += 1

    def take_bare(self):
        """The bytes up to the next space."""
        end = self.line.find(b" ", self.at)
        end = len(self.line) if end < 0 else end
        word, self.at = self.line[self.at:end], end
        return word

    def take_quoted(self):
        word, at = bytearray(), self.at + 1
        while self.line[at:at + 1] != b'"':
            if self.line[at:at + 1] == b"\\":
                at += 1
                if self.line[at:at + 1] not in (b'"', b"\\"):
                    raise Refused("bad-line")
            if at >= len(self.line):
                raise Refused("bad-line")
            word.append(self.line[at])
            at += 1
        self.at = at + 1
        if self.line[self.at:self.at + 1] not in (b"", b" "):
            raise Refused("bad-line")
        return bytes(word)

    def take_if_any(self):
        self.skip_spaces()
        if self.at == len(self.line):
            return None
        return self.take_quoted() if self.line[self.at:self.at + 1] == b'"' else self.take_bare()

    def take(self):
        word = self.take_if_any()
        if word is None:
            raise Refused("bad-line")
        return word

    def take_outer_name(self):
        """The name of a session or a space."""
        word = self.take()
        if not OUTER_NAME.fullmatch(word):
            raise Refused("bad-line")
        return word

    def take_number(self, most):
        word = self.take()
        if not re.fullmatch(rb"0|[1-9][0-9]*", word) or len(word) > 10 or int(word) > most:
            raise Refused("bad-line")
        return int(word)

    def take_session(self):
        """The session that the line names, or the one that is meant without a name."""
        self.skip_spaces()
        if self.line[self.at:self.at + 1] != b"@":
            return b"main"
        name = self.take_bare()[1:]
        if not OUTER_NAME.fullmatch(name):
            raise Refused("bad-line")
        return name

    def take_rest(self):
        """What stands behind one space."""
        rest, self.at = self.line[self.at + 1:], len(self.line)
        return rest

    def end(self):
        if self.take_if_any() is not None:
            raise Refused("bad-line")


def unescaped(text):
    """A text with its escapes undone."""
    out, at = bytearray(), 0
    while at < len(text):
        if text[at:at + 1] != b"\\":
            out.append(text[at])
            at += 1
        elif text[at + 1:at + 2] in ESCAPES:
            out += ESCAPES[text[at + 1:at + 2]]
            at += 2
        elif re.fullmatch(rb"x[0-9a-fA-F]{2}", text[at + 1:at + 4]):
            out.append(int(text[at + 2:at + 4], 16))
            at += 4
        else:
            raise Refused("bad-line")
    return bytes(out)


def escaped(text):
    """A text on one line, as `cat` prints it."""
    out = bytearray()
    for byte in text:
        if byte in b"\n\t\\":
            out += {10: b"\\n", 9: b"\\t", 92: b"\\\\"}[byte]
        elif byte < 32 or byte == 127:
            out += b"\\x%02x" % byte
        else:
            out.append(byte)
    return bytes(out)


def path_parts(word):
    return [part for part in word.split(b"/") if part not in (b"", b".")]


def is_bad_path(word):
    """Whether a path word breaks a rule, other than by the length of a name."""
    return word == b"" or any(byte < 32 or byte == 127 for byte in word)


def has_long_name(word):
    return any(len(part) > 255 for part in path_parts(word))


def joined(base, word):
    """The names to which a path word leads by text from the directory of these names."""
    names = [] if word.startswith(b"/") else list(base)
    for part in path_parts(word):
        if part == b"..":
            names = names[:-1]
        else:
            names.append(part)
    return names


def path_text(names):
    return b"/" + b"/".join(names)
