"""Reads tables of stored cases. cases/README.md has the grammar."""
import re
from dataclasses import dataclass, field
from pathlib import Path
from typing import Dict, List, Optional, Tuple, Union

from case_texts import Expression, Malformed, hexadecimal, made_by, tokens_of, unescaped

STEP_KEYS = ('status', 'says', 'errors', 'holds', 'also')

# The octets of a file, or how many zeros it has.
Content = Union[bytes, int]


@dataclass
class Entry:
    """A line of a table with the deeper lines below it."""
    number: int
    depth: int
    key: str
    rest: str
    block: List[str] = field(default_factory=list)


@dataclass(frozen=True)
class Wanted:
    """What a text must be: `how` is 'exactly', 'begins', 'ends', 'anything' or 'as before'."""
    how: str
    octets: bytes = b''


@dataclass(frozen=True)
class Held:
    """What a file must be: `how` is 'exactly', 'absent', 'as' another file, 'as before', or 'size'."""
    name: str
    how: str
    octets: bytes = b''
    other: str = ''
    size: int = 0


@dataclass
class Step:
    """A run of the program in the case's folder, after files were put there."""
    number: int
    files: List[Tuple[str, Content]]
    words: List[bytes]
    status: int = 0
    says: List[Wanted] = field(default_factory=list)
    errors: List[Wanted] = field(default_factory=list)
    holds: List[Held] = field(default_factory=list)
    also: List[List[str]] = field(default_factory=list)


@dataclass
class Case:
    path: Path
    number: int
    title: str
    steps: List[Step]


def entries_of(lines: List[str], first: int) -> List[Entry]:
    """Lines as entries: each takes the blank and deeper lines that follow. Comments between entries are left out."""
    entries: List[Entry] = []
    for number, line in enumerate(lines, first):
        text = line.strip()
        depth = len(line) - len(line.lstrip(' '))
        if entries and (not text or depth > entries[-1].depth):
            entries[-1].block.append(line)
        elif text and not text.startswith('#'):
            key, _, rest = text.partition(' ')
            entries.append(Entry(number, depth, key, rest.strip()))
    return entries


def block_text(entry: Entry) -> str:
    """The lines below an entry without their indentation, each with a line feed, and no blank lines at the end."""
    lines = list(entry.block)
    while lines and not lines[-1].strip():
        lines.pop()
    if not lines:
        return ''
    depth = min(len(line) - len(line.lstrip(' ')) for line in lines if line.strip())
    return ''.join(line[depth:] + '\n' for line in lines)


def without_block(entry: Entry) -> None:
    if block_text(entry):
        raise Malformed(f'the deeper lines below {entry.key!r} belong to nothing')


class CaseReader:
    """Makes steps of a case's entries, with the cells of a row in place of the names of columns."""

    def __init__(self, parts: Dict[str, bytes], cells: Dict[str, str]):
        self.parts, self.cells = parts, cells
        names = '|'.join(sorted(map(re.escape, cells), key=len, reverse=True))
        self.names = re.compile(rf'(?<![A-Za-z0-9_])(?:{names})(?![A-Za-z0-9_])') if cells else None

    def fill(self, text: str) -> str:
        if self.names is None:
            return text
        return self.names.sub(lambda match: self.cells[match.group()], text)

    def content(self, entry: Entry, rest: str, one_line: bool) -> Optional[bytes]:
        """`= ITEMS`, `hex` or nothing with lines below, or a text in the same line where that is allowed."""
        if rest.startswith('='):
            return Expression(rest[1:] + ' ' + ' '.join(entry.block), self.parts, self.fill).octets()
        if rest == 'hex':
            return hexadecimal(self.fill(block_text(entry)))
        if not rest:
            return self.fill(block_text(entry)).encode()
        without_block(entry)
        return self.fill(rest).encode() + b'\n' if one_line else None

    def wanted(self, entry: Entry) -> Wanted:
        if entry.rest in ('anything', 'as before'):
            return Wanted(entry.rest)
        how, _, rest = entry.rest.partition(' ')
        if how in ('begins', 'ends'):
            return Wanted(how, self.content(entry, rest.strip(), True) or b'')
        return Wanted('exactly', self.content(entry, entry.rest, True) or b'')

    def held(self, entry: Entry) -> Held:
        name, _, rest = entry.rest.partition(' ')
        name, rest = self.fill(name), rest.strip()
        if name == 'no' and rest:
            return Held(rest, 'absent')
        if rest == 'as before':
            return Held(name, 'as before')
        if rest.startswith('as '):
            return Held(name, 'as', other=rest[3:].strip())
        size = re.fullmatch(r'of (\d+) octets', self.fill(rest))
        if size:
            return Held(name, 'size', size=int(size.group(1)))
        return Held(name, 'exactly', self.file_content(entry, rest))

    def file_content(self, entry: Entry, rest: str) -> bytes:
        octets = self.content(entry, rest, False)
        if octets is None:
            raise Malformed(f"after a file's name comes '= ..', 'hex' or nothing, not {rest!r}")
        return octets

    def words(self, entry: Entry) -> List[bytes]:
        without_block(entry)
        made = []
        for token in tokens_of(self.fill(entry.rest)):
            made.append(unescaped(token.text) if token.kind == 'exact' else token.text.encode())
        return made

    def steps(self, entries: List[Entry]) -> List[Step]:
        steps: List[Step] = []
        files: List[Tuple[str, Content]] = []
        for entry in entries:
            with_place(entry, lambda e=entry: self.take(e, steps, files))
        if not steps or files:
            raise Malformed("a case ends in a 'run' with what must come of it")
        return steps

    def take(self, entry: Entry, steps: List[Step], files: List[Tuple[str, Content]]) -> None:
        if entry.key == 'file':
            name, _, rest = entry.rest.partition(' ')
            zeros = re.fullmatch(r'of (\d+) zeros', self.fill(rest.strip()))
            content = int(zeros.group(1)) if zeros else self.file_content(entry, rest.strip())
            files.append((self.fill(name), content))
        elif entry.key == 'files':
            files.extend(made_by(self.fill(entry.rest)).items())
        elif entry.key == 'run':
            steps.append(Step(entry.number, list(files), self.words(entry)))
            files.clear()
        elif entry.key not in STEP_KEYS:
            raise Malformed(f'no such word of a case: {entry.key!r}')
        elif not steps or files:
            raise Malformed(f'{entry.key!r} comes after a run')
        else:
            self.take_outcome(entry, steps[-1])

    def take_outcome(self, entry: Entry, step: Step) -> None:
        if entry.key in ('status', 'also') or entry.rest.startswith('no '):
            without_block(entry)
        if entry.key == 'status':
            step.status = int(self.fill(entry.rest))
        elif entry.key == 'says':
            step.says.append(self.wanted(entry))
        elif entry.key == 'errors':
            step.errors.append(self.wanted(entry))
        elif entry.key == 'holds':
            step.holds.append(self.held(entry))
        else:
            step.also.append(self.fill(entry.rest).split())


def with_place(entry: Entry, act):
    """Does it, and says in which line it was where something is wrong."""
    try:
        return act()
    except (Malformed, ValueError) as error:
        text = str(error)
        raise Malformed(text if text.startswith('line ') else f'line {entry.number}: {text}') from None


def cells_of(line: str) -> List[str]:
    return [cell.strip() for cell in line.strip().strip('|').split('|')]


def spread(cells: List[str]) -> List[List[str]]:
    """The rows for which a row stands: a cell `3..7` stands for each of these numbers."""
    rows = [cells]
    for place, cell in enumerate(cells):
        span = re.fullmatch(r'(\d+)\.\.(\d+)', cell)
        if span:
            numbers = range(int(span.group(1)), int(span.group(2)) + 1)
            rows = [row[:place] + [str(number)] + row[place + 1:] for row in rows for number in numbers]
    return rows


class TableReader:
    """Reads one file of parts, cases and tables."""

    def __init__(self, path: Path):
        self.path = path
        self.parts: Dict[str, bytes] = {}
        self.cases: List[Case] = []

    def read(self, path: Path) -> None:
        lines = path.read_text(encoding='utf-8').split('\n')
        for entry in entries_of(lines, 1):
            try:
                with_place(entry, lambda e=entry: self.take(e))
            except Malformed as error:
                raise Malformed(f'{path}: {error}' if ': line' not in str(error) else str(error)) from None

    def take(self, entry: Entry) -> None:
        if entry.key == 'use':
            self.read(self.path.parent / entry.rest)
        elif entry.key == 'part':
            self.take_part(entry)
        elif entry.key == 'case':
            inner = entries_of(entry.block, entry.number + 1)
            self.cases.append(Case(self.path, entry.number, entry.rest, CaseReader(self.parts, {}).steps(inner)))
        elif entry.key == 'table':
            self.take_table(entry)
        else:
            raise Malformed(f"a table has 'use', 'part', 'case' and 'table', not {entry.key!r}")

    def take_part(self, entry: Entry) -> None:
        name, _, rest = entry.rest.partition(' ')
        if name in self.parts:
            raise Malformed(f'there is a part {name!r} already')
        self.parts[name] = CaseReader(self.parts, {}).file_content(entry, rest.strip())

    def take_table(self, entry: Entry) -> None:
        """The lines before the rows are those of each case; the first row has the names of the columns."""
        inner = entries_of(entry.block, entry.number + 1)
        rows = [line for line in inner if line.key == '|']
        if len(rows) < 2:
            raise Malformed('a table has a row of names and rows below')
        names = cells_of('| ' + rows[0].rest)
        template = [line for line in inner if line.key != '|']
        for row in rows[1:]:
            cells = cells_of('| ' + row.rest)
            if len(cells) != len(names):
                raise Malformed(f'line {row.number}: {len(cells)} cells, not {len(names)}')
            for filled in spread(cells):
                reader = CaseReader(self.parts, dict(zip(names, filled)))
                steps = with_place(row, lambda r=reader: r.steps(template))
                self.cases.append(Case(self.path, row.number, f'{entry.rest}: {" | ".join(filled)}', steps))


def read_cases(path: Path) -> List[Case]:
    """The cases of a table."""
    reader = TableReader(path)
    reader.read(path)
    return reader.cases
