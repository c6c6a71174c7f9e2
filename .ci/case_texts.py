"""Texts of stored cases: tokens, escapes, and items that make octets. cases/README.md has the grammar."""
import re
from dataclasses import dataclass
from pathlib import Path
from typing import Callable, Dict, List

import greatest_files  # noqa: F401 -- its makers are taken by name
import made_files

TOP = Path(__file__).resolve().parent.parent
TOKEN = re.compile(r"""\s+|'([^']*)'|"((?:[^"\\]|\\.)*)"|([^\s'"]+)""")
ESCAPE = re.compile(r'\\(x[0-9a-fA-F]{2}|.)', re.DOTALL)
PLAIN_ESCAPES = {'n': b'\n', 't': b'\t', 'r': b'\r', '\\': b'\\', '"': b'"', '|': b'|', '0': b'\0'}
CALL = re.compile(r'([a-z_]+)\(([^()]*)\)')


class Malformed(Exception):
    """What is wrong with a table of cases, with how to mend it."""


@dataclass(frozen=True)
class Token:
    kind: str  # 'bare', 'line' for single quotes, 'exact' for double quotes
    text: str


def tokens_of(text: str) -> List[Token]:
    """The words of a line; quotes keep blanks."""
    found, place = [], 0
    while place < len(text):
        match = TOKEN.match(text, place)
        if not match:
            raise Malformed(f'a quote is not closed, or stands inside a word: {text[place:]!r}')
        place = match.end()
        for kind, group in (('line', 1), ('exact', 2), ('bare', 3)):
            if match.group(group) is not None:
                found.append(Token(kind, match.group(group)))
    return found


def unescaped(text: str) -> bytes:
    r"""The octets of a text in which \n, \t, \r, \0, \\, \", \| and \xHH stand for octets."""
    octets, place = b'', 0
    for match in ESCAPE.finditer(text):
        octets += text[place:match.start()].encode()
        name = match.group(1)
        if name[0] == 'x' and len(name) == 3:
            octets += bytes.fromhex(name[1:])
        elif name in PLAIN_ESCAPES:
            octets += PLAIN_ESCAPES[name]
        else:
            raise Malformed(f'no such escape: {match.group()}')
        place = match.end()
    return octets + text[place:].encode()


def hexadecimal(text: str) -> bytes:
    try:
        return bytes.fromhex(text)
    except ValueError:
        raise Malformed(f'no hexadecimal digits, two an octet: {text!r}') from None


class Expression:
    """Makes octets of the words of a line, from left to right."""

    def __init__(self, line: str, parts: Dict[str, bytes], fill: Callable[[str], str]):
        self.parts, self.fill = parts, fill
        self.tokens: List[Token] = []
        for token in tokens_of(line):
            filled = fill(token.text)
            if token.kind == 'bare' and filled != token.text:
                self.tokens += tokens_of(filled)
            else:
                self.tokens.append(Token(token.kind, filled))

    def octets(self) -> bytes:
        made, last = b'', b''
        while self.tokens:
            token = self.tokens.pop(0)
            if token == Token('bare', '*'):
                made += last * (self.number() - 1)
            elif token == Token('bare', 'with'):
                made = self.changed(made)
            elif token == Token('bare', 'without'):
                self.word('line')
                made = self.line_changed(made, b'')
            elif token == Token('bare', 'front'):
                made = made[:self.number()]
            else:
                last = self.item(token)
                made += last
        return made

    def next(self) -> Token:
        if not self.tokens:
            raise Malformed('the line ends too early')
        return self.tokens.pop(0)

    def number(self) -> int:
        token = self.next()
        if token.kind != 'bare' or not token.text.isdecimal():
            raise Malformed(f'a number is due, not {token.text!r}')
        return int(token.text)

    def word(self, wanted: str) -> None:
        token = self.next()
        if token != Token('bare', wanted):
            raise Malformed(f'{wanted!r} is due, not {token.text!r}')

    def item(self, token: Token) -> bytes:
        """A line in single quotes, octets in double quotes, 0xHEX, @FILE of the repository, a made file, or a part."""
        if token.kind == 'line':
            return token.text.encode() + b'\n'
        return self.piece(token)

    def piece(self, token: Token) -> bytes:
        """The same, but a text in single quotes has no line feed."""
        if token.kind == 'line':
            return token.text.encode()
        if token.kind == 'exact':
            return unescaped(token.text)
        if token.text.startswith('0x'):
            return hexadecimal(token.text[2:])
        if token.text.startswith('@'):
            return self.file_of_repository(token.text[1:])
        if CALL.fullmatch(token.text):
            return made_by(token.text)
        if token.text not in self.parts:
            raise Malformed(f'no part has the name {token.text!r}')
        return self.parts[token.text]

    @staticmethod
    def file_of_repository(name: str) -> bytes:
        try:
            return (TOP / name).read_bytes()
        except OSError as error:
            raise Malformed(f'{name} of the repository: {error.strerror}') from None

    def changed(self, made: bytes) -> bytes:
        """`with X for Y`: the first Y is replaced; Y may be `line N`, from 1, or `octet N`, from 0."""
        new = self.next()
        self.word('for')
        old = self.next()
        if old == Token('bare', 'line'):
            return self.line_changed(made, self.item(new))
        if old == Token('bare', 'octet'):
            place = self.number()
            octets = self.piece(new)
            return made[:place] + octets + made[place + len(octets):]
        found = self.piece(old)
        if found not in made:
            raise Malformed(f'{old.text!r} does not stand in the text that is to be changed')
        return made.replace(found, self.piece(new), 1)

    def line_changed(self, made: bytes, new: bytes) -> bytes:
        number = self.number()
        lines = made.splitlines(keepends=True)
        if not 1 <= number <= len(lines):
            raise Malformed(f'there is no line {number}')
        lines[number - 1] = new
        return b''.join(lines)


def made_by(text: str):
    """What a function of .ci/made_files.py makes: a file's octets, or several files by their names."""
    call = CALL.fullmatch(text)
    maker = made_files.MAKERS.get(call.group(1)) if call else None
    if maker is None:
        raise Malformed(f'.ci/made_files.py makes no {text!r}')
    try:
        return maker(*[argument.strip() for argument in call.group(2).split(',') if argument.strip()])
    except (TypeError, ValueError) as error:
        raise Malformed(f'{text}: {error}') from None
