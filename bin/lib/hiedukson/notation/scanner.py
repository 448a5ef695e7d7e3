"""One line of the notation, read from left to right. Every error has line and column, and says what was expected."""

import re

from ..errors import CardError

_BLANK = re.compile(r"[ \t\r\f\v]*")
_FOUND = re.compile(r"\S+")
_NUMBER = re.compile(r"(0[xX][0-9a-fA-F_]+|[0-9][0-9_]*)(?!\w)")
_WORD_END = re.compile(r"(?![\w-])")


class Scanner:
    def __init__(self, line, number):
        """`line` has no comment; `number` is the line's, counted from 1."""
        self.line = line
        self.number = number
        self.move(0)

    def move(self, at):
        """Go on at a place of the line, or at what stands behind the blanks there."""
        self.at = _BLANK.match(self.line, at).end()

    @property
    def is_done(self):
        return self.at == len(self.line)

    @property
    def is_at_number(self):
        return _NUMBER.match(self.line, self.at) is not None

    def accept(self, pattern):
        """The match of a pattern that stands next, which is then behind; None where it does not stand there."""
        found = pattern.match(self.line, self.at)
        if found:
            self.move(found.end())
        return found

    def expect(self, pattern, what):
        found = self.accept(pattern)
        if not found:
            raise self.unexpected(what)
        return found

    def is_at_word(self, word):
        """Whether this word stands next. One that ends in a letter must end there in the line too."""
        if not self.line.startswith(word, self.at):
            return False
        return not word[-1].isalpha() or _WORD_END.match(self.line, self.at + len(word)) is not None

    def accept_word(self, word):
        """Whether this word stands next; it is then behind."""
        if not self.is_at_word(word):
            return False
        self.move(self.at + len(word))
        return True

    def accept_number(self, what, most):
        """The number that stands next, decimal or with 0x; None where none does."""
        at = self.at
        found = self.accept(_NUMBER)
        if not found:
            return None
        value = _value(found.group(1))
        if value is None:
            raise self.error(f"{found.group(1)} is no number", at)
        if value > most:
            raise self.error(f"{what} is at most {most:,}, and this is {found.group(1)}", at)
        return value

    def expect_number(self, what, most):
        value = self.accept_number(what, most)
        if value is None:
            raise self.unexpected(what)
        return value

    def expect_end(self, what="the end of the line"):
        if not self.is_done:
            raise self.unexpected(what)

    def unexpected(self, what):
        found = _FOUND.match(self.line, self.at)
        return self.error(f"expected {what}, found {found.group() if found else 'the end of the line'}", self.at)

    def error(self, message, at=None):
        return CardError(message, self.number, (self.at if at is None else at) + 1)


def _value(digits):
    try:
        return int(digits, 0) if digits[:2].lower() == "0x" else int(digits, 10)
    except ValueError:
        return None
