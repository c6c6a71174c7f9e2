"""The forms of words, by docs/formats.md."""
import re

import layouts
import views

NAMES = 200
MOST = 2_000_000_000
TOP = 1_000_000


def number(word, low, high):
    return re.fullmatch("0|[1-9][0-9]*", word) is not None and low <= int(word) <= high


def is_name(word, most=NAMES):
    return 1 <= len(word.encode()) <= most


def is_prefix(word):
    return is_name(word) and not word.endswith("/")


def is_range(first, last):
    return number(first, 0, MOST) and number(last, 0, MOST) and 0 < int(last) - int(first) <= TOP


def is_form(words):
    """Whether the words are one of the forms."""
    if not words:
        return False
    form, rest = words[0], words[1:]
    many = {"check": 1, "slack": 1, "plain": 2, "run": 3, "stop": 3, "resume": 2, "demo": 2, "meter": 1, "picture": 4,
            "frames": 2, "page": 3, "--help": 0, "--version": 0}
    if form in ("probe", "waves"):
        return (4 <= len(rest) <= 19 and is_name(rest[0]) and is_range(*rest[1:3])
                and all(is_name(tap, 40) for tap in rest[3:]))
    if form not in many or len(rest) != many[form]:
        return False
    if form == "page":
        return is_name(rest[0]) and is_range(*rest[1:])
    if form == "demo":
        return number(rest[0], 1, 128) and number(rest[1], 1, 64)
    if form == "run":
        return is_name(rest[0]) and is_prefix(rest[1]) and number(rest[2], 1, 64)
    if form == "stop":
        return is_name(rest[0]) and is_prefix(rest[1]) and number(rest[2], 0, MOST)
    if form in ("plain", "resume"):
        return is_name(rest[0]) and is_prefix(rest[1])
    if form == "picture":
        return is_name(rest[0]) and is_name(rest[1]) and is_range(*rest[2:])
    return all(is_name(word) for word in rest)


def answer(words, files):
    """Status and line where they are plain without a run: of words that are no form, or that name what isn't there."""
    try:
        texts = [word.decode("utf-8") for word in words]
    except UnicodeDecodeError:
        return 1, "words fault"
    if not is_form(texts):
        return 1, "words fault"
    if texts[0].startswith("--") or texts[0] == "demo":
        return None
    if texts[1] not in files:
        return 4, f"read fault {texts[1]}"
    if texts[0] in ("probe", "waves"):
        tree = layouts.read(files[texts[1]])
        taps = views.taps_of(tree)
        if strangers := [tap for tap in texts[4:] if tap not in taps]:
            return 7, f"probe fault tap {strangers[0]}"
        if int(texts[3]) > 2 * tree["until_bits"]:
            return 7, "probe fault range"
    if texts[0] == "page" and int(texts[3]) > 2 * layouts.read(files[texts[1]])["until_bits"]:
        return 7, "page fault range"
    return None


WORDS = ["check", "slack", "plain", "run", "stop", "resume", "demo", "probe", "waves", "page", "meter", "picture",
         "frames", "--help", "--version", "-h", "Check", "", "l.toml", "no.toml", "out", "none/out", "none/", "/", "0",
         "1", "2", "01", "+1", "-1", "1 ", "1e3", "64", "65", "128", "129", "2000000000", "2000000001", "1000000",
         "1000001", "99999999999999999999", "a", "b", "a:1", "r1:1", "r1:2", "r1:3", "r1:01", "r1", "r1:0", "x" * 40,
         "x" * 41, "y" * 200, "z" * 201, "\u00e9" * 20, "\u00e9" * 21, "\u0661", "\n", "..", "l.toml\n"]
SHAPES = {"check": "l", "slack": "l", "plain": "lp", "run": "lpn", "stop": "lpn", "resume": "lp", "probe": "lnnttt",
          "waves": "lnnt", "page": "lnn", "meter": "l", "picture": "llnn", "frames": "ll", "demo": "nn", "--help": "",
          "--version": ""}


def random_word(dice, shape):
    lists = {"l": ["l.toml", "no.toml", "z" * 200], "p": ["out", "none/out"],
             "n": ["0", "1", "2", "7", "64", "1000", "1001001"], "t": ["a", "b", "r1:1", "r1:2", "c", "r1:3"]}
    return dice.choice(lists[shape]) if dice.random() < 0.9 else dice.choice(WORDS)


def make(dice):
    """Words that are nearly a form, or any."""
    if dice.random() < 0.2:
        words = [dice.choice(WORDS) for _ in range(dice.choice([0, 1, 2, 3, 4, 6, 20, 25]))]
    else:
        form = dice.choice(list(SHAPES))
        words = [form, *(random_word(dice, shape) for shape in SHAPES[form])]
        if form in ("probe", "waves"):
            words += [random_word(dice, "t") for _ in range(dice.choice([0, 0, 1, 12, 13, 14]))]
        if dice.random() < 0.15:
            at = dice.randrange(len(words) + 1)
            words[at : at + dice.choice([0, 1])] = [dice.choice(WORDS)] * dice.choice([0, 1, 1, 2])
    octets = [word.encode() for word in words]
    if octets and dice.random() < 0.05:
        octets[dice.randrange(len(octets))] += dice.choice([b"\xff", b"\xc3", b"\xed\xa0\x80"])
    if octets[:1] == [b"demo"] and is_form(words) and words[1] != "1":
        octets.append(b"1")
    return octets
