"""The command frames: its words, its statuses, and what it prints. docs/formats.md has them. Of a layout's fault it
prints less than netsim."""
import os

import frames_table
import layout_file
import load_file
import log_file
from refusal import Refusal, read_file

USAGE = "frames LAYOUT LOG: what became of each frame of a run, as a table; both have 1 to 200 octets"


def is_word(word):
    try:
        os.fsencode(word).decode()
    except UnicodeDecodeError:
        return False
    return 1 <= len(os.fsencode(word)) <= 200


def words_of(words):
    """The names of the layout and the log."""
    if len(words) != 2 or not all(map(is_word, words)):
        raise Refusal(1, "words fault", USAGE)
    return words


def table(words):
    """The text of the table."""
    layout_name, log_name = words_of(words)
    layout = layout_file.read(layout_name, read_file(layout_name, layout_file.MOST_OCTETS))
    queues = load_file.queues(layout)
    rows = log_file.read(read_file(log_name, log_file.MOST_OCTETS), layout, queues)
    return "".join(line + "\n" for line in frames_table.lines(layout, queues, rows))


def run(words, out, errors):
    """Does what the words ask, and returns the status."""
    try:
        status, text = 0, table(words)
    except Refusal as refusal:
        status, text = refusal.status, refusal.line + "\n"
        if refusal.sentence:
            print(f"frames: {refusal.sentence}", file=errors)
    except MemoryError:
        print("frames: out of memory", file=errors)
        return 6
    try:
        out.write(text.encode())
        out.flush()
    except OSError as error:
        print(f"frames: the table can't be written: {error.strerror}", file=errors)
        return status or 5
    return status
