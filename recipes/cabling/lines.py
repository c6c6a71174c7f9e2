"""In which line of a TOML document a row of an array of tables begins, and in which its keys stand."""
import re

HEADER = re.compile(r"\s*\[\[\s*([A-Za-z0-9_.-]+)\s*\]\]")
OTHER = re.compile(r"\s*\[\s*([A-Za-z0-9_-]+)")
KEY = re.compile(r"\s*([A-Za-z0-9_-]+)\s*=")


class Lines:
    """Tells lines of a document by row and key, where they can be told: rows and keys that begin a line. A row is a
    tuple, as ("segment", 0, "station", 2) for the third station of the first segment, or () for the file itself."""

    def __init__(self, text):
        self.found = {}
        # A text over several lines may look like anything.
        if '"""' in text or "'''" in text:
            return
        row, rows = (), {}
        for number, line in enumerate(text.splitlines(), 1):
            header, other, key = HEADER.match(line), OTHER.match(line), KEY.match(line)
            if header:
                row = self.next_row(header.group(1).split("."), rows)
                self.found[row, None] = number
            elif other:
                row = None
                self.found.setdefault(((), other.group(1)), number)
            elif key and row is not None:
                self.found.setdefault((row, key.group(1)), number)

    @staticmethod
    def next_row(names, rows):
        """The row that a header begins. rows has for each array how many rows it has so far."""
        row = ()
        for name in names[:-1]:
            row += (name, max(rows.get((*row, name), 0) - 1, 0))
        array = (*row, names[-1])
        rows[array] = rows.get(array, 0) + 1
        return (*array, rows[array] - 1)

    def line(self, row, key=None):
        """The line of a row's key, or else where the row begins, or that array of rows; or None."""
        while True:
            for what in (key, None):
                if (row, what) in self.found:
                    return self.found[row, what]
            if not row:
                return None
            row, key = row[:-2], row[-2]
