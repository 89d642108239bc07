"""The text's tokens, and its mistakes: each has its line and column, what was found there and what is expected."""
import re
from difflib import get_close_matches
from typing import Iterable, List, NamedTuple, NoReturn, Optional, Sequence

NAME, NUMBER, SIGN, ODD, END = "name", "number", "sign", "odd", "end"
_TOKEN = re.compile(
    r"[ \t\r]*(?:([A-Za-z_][A-Za-z0-9_]*)|([0-9][A-Za-z0-9_]*)|([]|.,:+[-])|([#;].*|$)|([^\s\w#;|.,:+\[\]-]+|.))", re.ASCII
)
_KINDS = (None, NAME, NUMBER, SIGN, END, ODD)
_END_GROUP = _KINDS.index(END)
_DECIMAL = re.compile(r"[0-9]+(?:_[0-9]+)*")
_HEXADECIMAL = re.compile(r"0[xX][0-9A-Fa-f]+(?:_[0-9A-Fa-f]+)*")
# More than any number of the text may be.
TOO_LARGE = 2**200


class Token(NamedTuple):
    kind: str
    text: str
    line: int
    # In characters, from 1.
    column: int


class Mistake(NamedTuple):
    line: int
    column: int
    found: str
    expected: str

    def text(self) -> str:
        return f"{self.line}:{self.column}: found {self.found}, expected {self.expected}"


class Wrong(Exception):
    """Ends a statement whose mistake is noted."""


def shown(text: str) -> str:
    """A piece of the text as a message has it: cut short, odd characters as question marks."""
    if len(text) > 40:
        text = text[:37] + "..."
    return "'" + "".join(c if " " < c <= "~" else "?" for c in text) + "'"


def found_at(token: Token) -> str:
    return "the end of the line" if token.kind is END else shown(token.text)


def tokens_of(text: str, number: int) -> List[Token]:
    """A line's tokens; the last is END, right behind the one before it."""
    tokens = []
    end = 1
    for match in _TOKEN.finditer(text):
        group = match.lastindex
        if group == _END_GROUP:
            break
        tokens.append(Token(_KINDS[group], match[group], number, match.start(group) + 1))
        end = match.end() + 1
    tokens.append(Token(END, "", number, end))
    return tokens


def number_of(text: str) -> Optional[int]:
    """Decimal, or hexadecimal after 0x, with _ between digits where it helps; None for anything else."""
    if text.isdigit() and len(text) < 30:
        return int(text)
    base = 10 if _DECIMAL.fullmatch(text) else 16 if _HEXADECIMAL.fullmatch(text) else 0
    if base == 0:
        return None
    digits = text.replace("_", "").lstrip("0xX")
    return TOO_LARGE if len(digits) > 30 else int(digits or "0", base)


def meant(word: str, known: Iterable[str]) -> str:
    """The end of a message about a word that isn't known: the one that it resembles, if there is one."""
    close = get_close_matches(word, known, n=1)
    return f"; did you mean {close[0]}?" if close else ""


def listed(words: Sequence[str]) -> str:
    """One of several, as a sentence has it."""
    return words[0] if len(words) == 1 else ", ".join(words[:-1]) + " or " + words[-1]


def _number_expected(what: str, least: int, most: int) -> str:
    return f"{what}, a number from {least} to {most}" if most < 2**64 - 1 else f"{what}, a number of at most 64 bits"


class Line:
    """A line's tokens, taken one after another. What can be read past is noted, and the rest ends the statement (Wrong)."""

    def __init__(self, text: str, number: int, mistakes: List[Mistake]) -> None:
        self.tokens = tokens_of(text, number)
        self.number = number
        self.mistakes = mistakes
        self.at = 0

    def peek(self) -> Token:
        return self.tokens[self.at]

    def after_next(self) -> Token:
        return self.tokens[min(self.at + 1, len(self.tokens) - 1)]

    def take(self) -> Token:
        token = self.tokens[self.at]
        if token.kind is not END:
            self.at += 1
        return token

    def note(self, token: Token, expected: str, found: Optional[str] = None) -> None:
        self.mistakes.append(Mistake(token.line, token.column, found or found_at(token), expected))

    def fail(self, expected: str, token: Optional[Token] = None) -> NoReturn:
        self.note(token or self.peek(), expected)
        raise Wrong

    def next_is(self, text: str) -> bool:
        """Whether a sign or a word of the language comes next."""
        return self.tokens[self.at].text.lower() == text

    def skip(self, text: str) -> bool:
        """Takes a sign or a word of the language if it comes next."""
        if self.next_is(text):
            self.at += 1
            return True
        return False

    def need(self, text: str, expected: Optional[str] = None) -> None:
        if not self.skip(text):
            self.fail(expected or f"'{text}'")

    def name(self, what: str) -> Token:
        if self.peek().kind is not NAME:
            self.fail(what)
        return self.take()

    def number_token(self, token: Token, what: str, most: int, least: int = 0, negative: bool = False) -> int:
        """A token's number; one that is out of its range is noted, and the nearest that isn't stands for it."""
        value = number_of(token.text) if token.kind is NUMBER else None
        if value is None:
            self.fail(_number_expected(what, least, most), token)
        if negative:
            value = -value
        if least <= value <= most:
            return value
        self.note(token, _number_expected(what, least, most), ("'-" if negative else "'") + shown(token.text)[1:])
        return least if value < least else most

    def number_up_to(self, what: str, most: int, least: int = 0) -> int:
        negative = least < 0 and self.skip("-")
        return self.number_token(self.take(), what, most, least, negative)

    def number_needed(self, what: str, most: int) -> int:
        """As number_up_to, but out of its range it ends the statement: whatever rests on it would be told as well."""
        noted = len(self.mistakes)
        value = self.number_up_to(what, most)
        if len(self.mistakes) > noted:
            raise Wrong
        return value

    def end(self) -> None:
        if self.peek().kind is not END:
            self.fail("the end of the line")
