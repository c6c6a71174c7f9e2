"""Random layouts with their loads, and layouts in which a fault was put, spelled in several ways of TOML."""
import captures

STATION_NAMES = ["a", "b", "c", "d", "s-1", "S_2", "x" * 32, "7"]


def frame(dice, most=1514):
    """A random frame: short ones often, of the greatest length at times."""
    length = dice.choice([14, 14, 20, 59, 60, 61, 100, dice.randint(14, 300), most if dice.random() < 0.2 else 64])
    head = [255] * 6 + [2, 0, 0, 0, 0, dice.randrange(256), 8, 0]
    return bytes(head + [dice.randrange(256)] * (length - 14))


def place_taps(dice, taken, segment, reach):
    at = dice.randint(0, reach)
    while (segment, at) in taken:
        at = dice.randint(0, reach + len(taken) + 1)
    taken.add((segment, at))
    return {"segment": segment, "at": at}


def sound(dice, most_bits=6000):
    """The tree of a layout without a fault: one to four segments, up to six stations, and who sends what."""
    segments = [f"g{n}" for n in range(dice.choice([1, 1, 2, 2, 3, 4]))]
    reach, taken = dice.choice([2, 20, 200, 400, 1500]), set()
    tree = {"format": dice.choice([1, 1, 2]), "seed": dice.choice([0, 1, dice.getrandbits(63)]),
            "until_bits": dice.choice([1, 700, dice.randint(1, most_bits), most_bits]),
            "segment": [{"name": name} for name in segments]}
    stations = [{"name": name, **place_taps(dice, taken, dice.choice(segments), reach)}
                for name in STATION_NAMES[: dice.randint(0, 6)]]
    for station in stations:
        if tree["format"] == 2 and dice.random() < 0.5:
            station["lose_bits"] = dice.randint(0, 48)
    repeaters = [{"name": f"r{n}", "delay": dice.choice([1, 16, 28, 200, dice.randint(1, 200)]),
                  "port": [place_taps(dice, taken, segments[dice.randrange(n)], reach),
                           place_taps(dice, taken, segments[n], reach)]} for n in range(1, len(segments))]
    if repeaters and dice.random() < 0.3:
        merge_repeaters(dice, repeaters)
    most = 1514 if tree["format"] == 1 else 1518
    crowd = dice.choice([1, 500, most_bits, 2 * most_bits])
    sends = [{"station": dice.choice(stations)["name"], "at": dice.randrange(crowd), "octets": frame(dice, most).hex()}
             for _ in range(dice.choice([0, 2, 4, 10, 30]) if stations else 0)]
    for key, rows in (("station", stations), ("repeater", repeaters), ("send", sends)):
        if rows or dice.random() < 0.1:
            tree[key] = rows
    return tree


def merge_repeaters(dice, repeaters):
    """Makes one repeater of all, where they are a star about one segment."""
    hub = repeaters[0]["port"][0]["segment"]
    if all(row["port"][0]["segment"] == hub for row in repeaters):
        repeaters[0]["port"] += [row["port"][1] for row in repeaters[1:]]
        del repeaters[1:]


def load(dice, most=1514, end=8000):
    """A capture as a load, of any of its four forms; at times with records that are skipped."""
    order, scale = dice.choice("<>"), dice.choice([1, 1000])
    octets, nanos = captures.header(order, scale), dice.choice([0, 10**9, dice.getrandbits(40)])
    for _ in range(dice.choice([0, 1, 2, 5, 12])):
        one = dice.choice([frame(dice, most), frame(dice, most), bytes(13), bytes(most + 1), b""])
        original = len(one) + 1 if dice.random() < 0.05 else None
        octets += captures.record(one, nanos, order, scale, original)
        nanos += dice.choice([0, 1, 50, 10_000, dice.randrange(50 * end)])
    return octets


def with_loads(dice, tree, files):
    """Gives some stations loads, and puts these into the files."""
    for station in tree.get("station", []):
        if dice.random() < 0.3:
            name = dice.choice(["1.pcap", f"{station['name']}.pcap", "load of \u00e9.pcap"])
            station["load"] = name
            files.setdefault(name, load(dice, end=2 * tree["until_bits"]))
    return tree


# Spelling.


def escaped(text):
    if text.isalnum() and text.isascii():
        return text
    return "".join(sign if sign.isprintable() and sign not in "\"\\" else f"\\U{ord(sign):08x}" for sign in text)


def text_of(dice, text):
    way = dice.randrange(14)
    if way < 8 or not (text.isascii() and text.isprintable()) or "'" in text or '"' in text or "\\" in text:
        return f'"{escaped(text)}"'
    if way == 8:
        return '"' + "".join(f"\\u{ord(sign):04x}" for sign in text[:60]) + text[60:] + '"'
    return [f"'{text}'", f'"""{text}"""', f"'''\n{text}'''", f'"""\\\n   {text}"""', f"'{text}'"][way - 9]


def number_of(dice, number):
    way = dice.randrange(14)
    if way < 8 or number < 0:
        return str(number)
    return [f"+{number}", hex(number), oct(number), bin(number), f"{number:_}", f"0x{number:X}"][way - 8]


def value_of(dice, value, plain):
    if isinstance(value, bool):
        return "true" if value else "false"
    if isinstance(value, str):
        return text_of(dice, value) if not plain else '"' + value + '"'
    if isinstance(value, int):
        return str(value) if plain else number_of(dice, value)
    if isinstance(value, dict):
        return "{" + ", ".join(f"{key} = {value_of(dice, item, plain)}" for key, item in value.items()) + "}"
    if isinstance(value, list):
        return "[" + ", ".join(value_of(dice, item, plain) for item in value) + "]"
    return str(value)


def spell(dice, tree, plain=True):
    """The text of a tree. If it needn't be plain, rows are spelled inline at times, and values in many ways."""
    lines, tables = [], []
    for key, value in tree.items():
        is_rows = isinstance(value, list) and value and all(isinstance(row, dict) for row in value)
        if is_rows and (plain or dice.random() < 0.85):
            tables.append((key, value))
        else:
            lines.append(f"{key} = {value_of(dice, value, plain)}")
    for key, rows in tables:
        for row in rows:
            lines.append(f"[[{key}]]" if plain else dice.choice([f"[[{key}]]", f"[[ {key} ]] # {key}", f'[["{key}"]]']))
            lines += row_lines(dice, key, row, plain)
    end = "\n" if plain else dice.choice(["\n", "\n", "\r\n", "\n\n", "   \n"])
    return end.join(lines) + end


def row_lines(dice, key, row, plain):
    for name, value in row.items():
        if isinstance(value, list) and value and all(isinstance(item, dict) for item in value):
            if plain or dice.random() < 0.8:
                continue
        yield f"{name} = {value_of(dice, value, plain)}"
        row = {other: item for other, item in row.items() if other != name}
    for name, value in row.items():
        for item in value if isinstance(value, list) else []:
            yield f"[[{key}.{name}]]"
            yield from row_lines(dice, f"{key}.{name}", item, plain)


# Trees with a fault.

VALUES = [0, 1, 2, -1, 200, 201, 2000, 2001, 48, 49, 2**63 - 1, 2**63, 2 * 10**9, 2 * 10**9 + 1, 10**9 + 1, 4 * 10**9,
          True, "1.5", "", "x", "a\0b", "g0", "g1", "a", "r1", "x" * 33, "name with space", "\u00e9", [], [1], {}, [{}],
          [{"name": "q"}, 1], "z" * 255, "z" * 256, "00" * 13, "00" * 14, "00" * 1515, "00" * 1519, "0" * 29, "zz" * 20]


def tables_of(tree):
    found = [tree]
    for key in ("segment", "station", "repeater", "send"):
        rows = tree.get(key)
        for row in rows if isinstance(rows, list) else []:
            if isinstance(row, dict):
                found.append(row)
                ports = row.get("port")
                found += [port for port in ports if isinstance(port, dict)] if isinstance(ports, list) else []
    return found


def break_tree(dice, tree):
    """Puts one to three changes into a tree, most of which are faults."""
    for _ in range(dice.choice([1, 1, 2, 3])):
        table = dice.choice(tables_of(tree))
        keys = list(table)
        change = dice.randrange(8)
        if change == 0 and keys:
            del table[dice.choice(keys)]
        elif change == 1:
            table[dice.choice(["color", "lose_bits", "load", "port", "name", "Format"])] = dice.choice(VALUES)
        elif change in (2, 3, 4) and keys:
            table[dice.choice(keys)] = dice.choice(VALUES)
        else:
            mix_rows(dice, tree, change)
    return tree


def mix_rows(dice, tree, change):
    """Copies a row or a value of one row into another place."""
    lists = [value for table in tables_of(tree) for value in table.values() if isinstance(value, list) and value]
    if not lists:
        return
    rows = dice.choice(lists)
    if change == 5:
        copy = dice.choice(rows)
        rows.insert(dice.randrange(len(rows) + 1), dict(copy) if isinstance(copy, dict) else copy)
    elif change == 6:
        del rows[dice.randrange(len(rows))]
    else:
        one, other = dice.choice(rows), dice.choice(rows)
        if isinstance(one, dict) and isinstance(other, dict) and one:
            key = dice.choice(list(one))
            other[key] = one[key]


def crowd(dice, tree):
    """Makes one kind of row as many as can be, or one more. What a fault left of lists of rows is put aside."""
    for table in ("segment", "station", "repeater"):
        if not isinstance(tree.get(table), list):
            tree[table] = []
    kind = dice.choice(["segment", "station", "repeater", "port", "product", "file"])
    more = dice.choice([0, 1])
    if kind == "segment":
        tree["segment"] += [{"name": f"h{n}"} for n in range(256 + more - len(tree["segment"]))]
    elif kind == "station":
        tree["station"] = [{"name": f"t{n}", "segment": "g0", "at": n} for n in range(1024 + more)]
    elif kind == "repeater":
        tree["repeater"] = [{"name": f"q{n}", "delay": 1, "port": [{"segment": "g0", "at": n}] * 2}
                            for n in range(128 + more)]
    elif kind == "port":
        ports = [{"segment": f"h{n}", "at": 0} for n in range(32 + more)]
        tree["segment"] += [{"name": f"h{n}"} for n in range(32 + more)]
        tree.setdefault("repeater", []).append({"name": "hub", "delay": 1, "port": ports})
    elif kind == "product":
        devices = len(tree.get("station", [])) + len(tree.get("repeater", []))
        tree["until_bits"] = min(10**9 + more, 4 * 10**9 // max(1, devices) + more)
    return tree
