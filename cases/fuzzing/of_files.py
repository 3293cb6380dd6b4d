"""Cases of configuration files, for `lg check`."""

from fuzzing import files, numbers
from fuzzing.kinds import RunKind
from fuzzing.making import damaged
from fuzzing.runs import ANYTHING, Case, Outcome, text_of

NAMES = ["b", "a", "c", "A.z_-9", "n" * 32, "n" * 33, "", "a b", "é", "a@b", "-"]
ROWS = files.FILE_NUMBERS | files.OWN_NUMBERS | {"port": (1, 65535, 7946), "dice": (0, 2**63 - 1, 1)}
OCTETS = ["0", "1", "7", "127", "010", "255", "256", "0" * 14 + "10", "0" * 15 + "10", "", "-1", "+1", " 1", "1e1"]
PATHS = ["group.key", "", "x" * 255, "x" * 256, "a\nb", "\x7f", "é", "/a b/~", "none"]
IPV6 = ["::1", "::", "2001:db8::5", "2001:DB8:0:0:1:0:0:5", "::ffff:192.0.2.1", "1::2::3", "::1%1", "1:2:3:4:5:6:7",
        "1:2:3:4:5:6:7:8", "::12345", "1::", ":", "::010.0.0.1"]
SWITCHES = ["on", "off", "On", "", "true", "on "]
HOSTS = ["a", "db.example", "A-1_.z", "1.2.3.4x", "fe80", "x" * 253, "x" * 254, "12", "1.2.3", "-", "", "a b", "a/b",
         "é"]
PORTS = ["1", "7946", "65535", "65536", "0", "00001", "", "x", "-1"]
# Values of each TOML type and spelling, right or wrong at any key.
VALUES = [
    "1", "0", "-1", "+5", "1_000", "0x10", "0o17", "0b101", "0X10", "01", "1__0", "9223372036854775807",
    "9223372036854775808", "-9223372036854775808", "1.5", "1e3", "inf", "-nan", ".5", "true", "false", "True",
    "2026-11-23", "2026-11-23T07:32:00Z", "07:32:00", "2026-13-23", '"text"', "'text'", '"""\ntext"""', "'''text'''",
    '"\\u0062"', '"\\q"', '"open', "[]", "[1, 2]", '["a", 1]', "[[], [[]]]", "[1,]", "[,]", "{}", "{ a = 1 }",
    '"b"  # a comment', "", "b", '"' + "x" * 70 + '"', '"tab\\t"', '"\x07"']


def spelled(dice, text):
    """A text in one of its spellings."""
    how = dice.randrange(8)
    if how == 0:
        return f"'{text}'"
    if how == 1:
        return f'"""{text}"""'
    if how == 2:
        return f"'''\n{text}'''"
    if how == 3:
        return '"' + "".join(f"\\u{ord(it):04x}" for it in text) + '"'
    return f'"{text}"'


def whole_number(dice, number):
    """A whole number in one of its spellings."""
    spellings = [str(number), f"{number:_}"] + ([hex(number), f"0o{number:o}", bin(number), f"+{number}"]
                                                if number >= 0 else [])
    return dice.choice(spellings)


def number_near(dice, row):
    """A number in a range, or just outside."""
    least, most = row[:2]
    between = [(least + most) // 2, dice.randint(least, most)]
    return dice.choice([least, most, least - 1, most + 1, *between, row[2], 0])


def address(dice):
    """An address, which may be out of its form."""
    if dice.random() < 0.2:
        return dice.choice(IPV6)
    return ".".join(dice.choice(OCTETS[:4] if dice.random() < 0.9 else OCTETS)
                    for _ in range(dice.choice([4, 4, 4, 4, 4, 4, 3, 5])))


def own_address(dice):
    """An address, or the word for one that is to be found."""
    return dice.choice(["auto", "auto", "auto", "Auto", "auto:1"]) if dice.random() < 0.3 else address(dice)


def place(dice):
    """An address with a port, often of loopback."""
    where = dice.choice(["127.0.0.1", "127.1.2.3", "0.0.0.0", "128.0.0.1", address(dice)])
    where = f"[{where}]" if ":" in where and dice.random() < 0.9 else where
    port = dice.choice(PORTS[:3] if dice.random() < 0.9 else PORTS)
    return where + dice.choice([":", ":", ":", ":", "", "::"]) + port


def bound(dice):
    """An address that mostly has a port."""
    return place(dice) if dice.random() < 0.7 else address(dice)


def host(dice):
    """A host that mostly has a port."""
    name = dice.choice(HOSTS[:6] if dice.random() < 0.8 else HOSTS)
    port = dice.choice(PORTS[:3] if dice.random() < 0.9 else PORTS)
    return name + dice.choice([f":{port}", f":{port}", f":{port}", "", "::"])


def seeds(dice):
    """An array of seeds, mostly with distinct names, in one of its spellings."""
    count = dice.choice([0, 1, 2, dice.randrange(16), 16, 17])
    texts = [f"s{number}@{place(dice) if dice.random() < 0.03 else '127.0.0.1:7'}" for number in range(count)]
    texts += [f"{dice.choice(NAMES)}@{place(dice)}"] if dice.random() < 0.3 else []
    texts = [bound(dice) if dice.random() < 0.2 else it for it in texts] if dice.random() < 0.5 else texts
    at = dice.choice(["", "", "s0@", "c@", "b@", "@"])
    texts += [f"{at}{host(dice)}" for _ in range(dice.choice([1, 1, 2]))] if dice.random() < 0.4 else []
    dice.shuffle(texts)
    items = [spelled(dice, it) for it in texts]
    gap = dice.choice([", ", ",", " ,\n\t", ", # seeds\n"])
    end = dice.choice(["", ",", "\n"]) if items else ""
    return f"[{gap.join(items)}{end}]"


def right_value(dice, key):
    """A value for a key that is no fault, whatever else the file has."""
    texts = {"name": "b", "address": "127.0.0.1", "status": dice.choice(["127.0.0.1:8946", "127.9.0.10:1"]),
             "leave": dice.choice(["on", "off"]), "bind": dice.choice(["0.0.0.0", "127.0.0.1:7946", "127.9.0.10:1"])}
    plain = {"seeds": dice.choice(["[]", '["db.example"]', '["c7@db.example:1", "10.0.0.7"]']),
             "status_open": dice.choice(["true", "false"])}
    if key in ROWS:
        least, most, default = ROWS[key][:3]
        # The timeout has to be shorter than the interval.
        return whole_number(dice, default if key.endswith("_ms") else dice.choice([least, most, default]))
    return plain[key] if key in plain else spelled(dice, texts.get(key, "b"))


def wild_value(dice, key):
    """A value for a key that may be right or wrong."""
    if dice.random() < 0.2:
        return dice.choice(VALUES)
    if key in ROWS:
        return whole_number(dice, number_near(dice, ROWS[key]))
    made = {"name": lambda: spelled(dice, dice.choice(NAMES)), "address": lambda: spelled(dice, own_address(dice)),
            "seeds": lambda: seeds(dice), "status": lambda: spelled(dice, place(dice)),
            "leave": lambda: spelled(dice, dice.choice(SWITCHES)), "bind": lambda: spelled(dice, bound(dice)),
            "record": lambda: spelled(dice, dice.choice(PATHS)),
            "key_file": lambda: spelled(dice, dice.choice(PATHS)), "group": lambda: spelled(dice, dice.choice(NAMES))}
    return made.get(key, lambda: dice.choice(["true", "false", *VALUES]))()


def line(dice, key, is_wild):
    """A line that gives a key a value."""
    shown = dice.choice([key, key, key, key, key, key, f'"{key}"', f"'{key}'"])
    shown = f"{key}.{key}" if is_wild and dice.random() < 0.01 else shown
    value = (wild_value if is_wild else right_value)(dice, key)
    return f"{dice.choice(['', '', ' '])}{shown}{dice.choice([' = ', '='])}{value}"


class Files(RunKind):
    """Each file is a case."""

    name = "files"
    varied = "file"
    wrong_rules = (
        (files, "MOST_DEPTH", 0), (files, "TEXT_KEYS", ("name",)), (files, "SYNTAX", 13), (files, "VALUE", 11),
        (files, "SHOWN_MEMBERS", (4, 16, 32, 256)), (files, "STATUS_NOT_LOOPBACK", 19),
        (files, "KEY_FILE", 20), (files, "GROUP_FAULT", 25), (files, "LEAVE", 26), (files, "BIND", 27),
        (files, "FAMILY", 28), (files, "AUTO", 29),
        (files, "OWN_NUMBERS", files.OWN_NUMBERS | {"pull_ms": (1, 3_600_000, 30_000, 16)}),
        (numbers, "MOST_SEEDS", 15), (numbers, "MAY_BE_OFF", ()),
        (numbers, "RATIOS", [[900], [0, 1000], *numbers.RATIOS[2:]]))

    def make(self, dice):
        keys = ["name"] if dice.random() < 0.97 else []
        keys += dice.sample(sorted(files.KEYS - {"name"}), dice.choice([0, 1, 2, 3, dice.randrange(17)]))
        keys += [dice.choice(["colour", "Name", "seed", "name", "é"])] if dice.random() < 0.03 else []
        dice.shuffle(keys)
        # Mostly one key or two have a value that may be wrong, so that no other fault hides theirs.
        wild = set(dice.sample(keys, min(len(keys), dice.choice([0, 1, 1, 1, 2, len(keys)]))))
        # A member of a group mostly sends version three, and one with an address, which may be IPv6, half the time.
        share = 0.9 if "group" in keys else 0.5 if "address" in keys else 0
        fixed = {"wire": "wire = 3"} if dice.random() < share else {}
        # An address that is to be found needs seeds.
        fixed |= {"address": 'address = "auto"'} if {"address", "seeds"} <= set(keys) and dice.random() < 0.5 else {}
        lines = [*fixed.values(), *(line(dice, key, key in wild) for key in keys if key not in fixed)]
        if dice.random() < 0.05:
            other = dice.choice(["", "# words", "[table]", "[[rows]]", "\t", "=", "\r"])
            lines.insert(dice.randrange(len(lines) + 1), other)
        text = dice.choice(["\n", "\n", "\n", "\r\n"]).join(lines) + dice.choice(["", "\n", "\n", "\n\n"])
        data = text.encode()
        data += b"#" * dice.choice([0, 65_536 - len(data), 65_537 - len(data)]) if dice.random() < 0.01 else b""
        return Case(("check", "--config", "FILE"), file=damaged(dice, data) if dice.random() < 0.15 else data)

    def wanted(self, case):
        try:
            lines, fault = files.checked(case.file)
        except files.Unsure:
            return None
        if fault is None:
            return Outcome(0, text_of(lines))
        return Outcome(3, b"", (f"lg: config {fault}", ANYTHING))
