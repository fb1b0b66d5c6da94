"""The tokens of a line of a model, cut as far as they are asked for."""

import dataclasses
import re

from .finding import Finding, Stop, character_at, quoted

TOKEN = re.compile(r"[ \t]*(?:([A-Za-z_][A-Za-z0-9_.]*)|([0-9]+(?:[./][0-9]+)?)|(<=|>=|[-+=(),])|([^ \t]))", re.DOTALL)
KINDS = ("word", "number", "mark", "stray")
RESERVED = frozenset("not and or implies equivalent xor exactly atleast atmost inf end".split())


@dataclasses.dataclass
class Token:
    kind: str
    text: str
    start: int


class Cursor:
    """Goes along a line without its comment."""

    def __init__(self, line: bytes):
        self.line = line
        self.text = line.decode("latin-1")
        self.ahead: list[Token] = []
        self.place = 0

    def peek(self, ahead: int = 0) -> Token:
        """The token so many places on; the end of the line has the kind `end`."""
        while len(self.ahead) <= ahead:
            found = TOKEN.match(self.text, self.place)
            if not found:
                return Token("end", "", len(self.text.rstrip(" \t")))
            self.place, group = found.end(), found.lastindex or 1
            self.ahead.append(Token(KINDS[group - 1], found[group], found.start(group)))
        return self.ahead[ahead]

    def next(self) -> Token:
        token = self.peek()
        if self.ahead:
            self.ahead.pop(0)
        return token

    def met(self, token: Token) -> str:
        """What to say of a token."""
        if token.kind == "end":
            return "the end of the line"
        if token.kind == "stray":
            return character_at(self.line, token.start)
        is_reserved = token.kind == "word" and token.text in RESERVED
        return f"the reserved word {quoted(token.text)}" if is_reserved else quoted(token.text)

    def stop(self, wanted: list[str], what: str) -> None:
        """Ends the reading at the next token."""
        token = self.peek()
        raise Stop(Finding(token.start, self.met(token), wanted, what))

    def take(self, kind: str, texts: tuple[str, ...], wanted: list[str], what: str) -> Token:
        """The next token, if it is of this kind and one of these texts, where texts are given."""
        token = self.peek()
        if token.kind != kind or texts and token.text not in texts:
            self.stop(wanted, what)
        return self.next()

    def name(self, wanted: str, what: str) -> Token:
        """The next token, if it is a name."""
        if self.peek().text in RESERVED:
            self.stop([wanted], what)
        return self.take("word", (), [wanted], what)

    def end(self, wanted: list[str], what: str) -> None:
        """Nothing more stands on the line."""
        if self.peek().kind != "end":
            self.stop([*wanted, "the end of the line"], what)
