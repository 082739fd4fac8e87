"""Words for the cases of `fuzz`: a command's options at and over their edges, filters, keys and tables, and lines that are no command."""
from commands import OPTIONS_OF_CHECK, OPTIONS_OF_MERGE, RANGES, Options, rss_key_of, table_of
from filters import (
    ARITHMETIC,
    CODES,
    COMPARISONS,
    DIVIDE,
    JUMP,
    LENGTH_OF_LOAD,
    LENGTH_OF_LOAD_BY_X,
    OF_MEMORY,
    REMAINDER,
    RETURN_A,
    RETURN_K,
    SHIFT_LEFT,
    SHIFT_RIGHT,
    WITH_X,
    X_OF_HEADER,
    filter_of,
)

BY_X_AND_ENDS = {*LENGTH_OF_LOAD_BY_X, *(code + WITH_X for code in (DIVIDE, REMAINDER, SHIFT_LEFT, SHIFT_RIGHT))}
ENDING = {*LENGTH_OF_LOAD, *LENGTH_OF_LOAD_BY_X, X_OF_HEADER, DIVIDE + WITH_X, REMAINDER + WITH_X}

OF_COMMAND = {"merge": OPTIONS_OF_MERGE, "check": OPTIONS_OF_CHECK, "segment": ("blocks",)}
USUAL = {"budget": (1, 2, 3, 4, 4, 64, 65, 4096), "queues": (1, 2, 3, 64), "taps": (0, 1, 2, 8), "snap": (1, 20, 64, 2048)}
USUAL |= {"segs": (1, 2, 2, 3, 4, 17, 4096), "blocks": (1, 3, 3, 4, 6, 40, 8384), "seed": (0, 1, 2, 2**64 - 1), "count": (0, 1, 2, 20, 100)}
DEFAULT_BLOCKS = 8384

RSS_KEYS = (
    "6d5a56da255b0ec24167253d43a38fb0d0ca2bcbae7b30b477cb2da38030f20c6a42b73bbeac01fa",
    "6d5a" * 20,
    "00" * 39 + "01",
    "80" + "00" * 39,
    "ff" * 40,
)

# What tcpdump makes of some expressions.
COMPILED = (
    # ip
    "4,40 0 0 12,21 0 1 2048,6 0 0 262144,6 0 0 0",
    # ip6
    "4,40 0 0 12,21 0 1 34525,6 0 0 262144,6 0 0 0",
    # tcp
    "12,40 0 0 12,21 0 2 2048,48 0 0 23,21 6 7 6,21 0 6 34525,48 0 0 20,21 3 0 6,21 0 3 44,48 0 0 54,21 0 1 6,6 0 0 262144,6 0 0 0",
    # udp port 53
    "20,40 0 0 12,21 0 6 34525,48 0 0 20,21 0 15 17,40 0 0 54,21 12 0 53,40 0 0 56,21 10 11 53,21 0 10 2048,48 0 0 23,21 0 8 17,"
    "40 0 0 20,69 6 0 8191,177 0 0 14,72 0 0 14,21 2 0 53,72 0 0 16,21 0 1 53,6 0 0 262144,6 0 0 0",
    # tcp[tcpflags] & tcp-push != 0
    "11,40 0 0 12,21 0 8 2048,48 0 0 23,21 0 6 6,40 0 0 20,69 4 0 8191,177 0 0 14,80 0 0 27,69 0 1 8,6 0 0 262144,6 0 0 0",
    # vlan 3 and tcp
    "19,40 0 0 12,21 2 0 33024,21 1 0 34984,21 0 14 37120,40 0 0 14,84 0 0 4095,21 0 11 3,40 0 0 16,21 0 2 2048,48 0 0 27,"
    "21 6 7 6,21 0 6 34525,48 0 0 24,21 3 0 6,21 0 3 44,48 0 0 58,21 0 1 6,6 0 0 262144,6 0 0 0",
    # greater 100
    "4,128 0 0 0,53 0 1 100,6 0 0 262144,6 0 0 0",
    # less 60
    "4,128 0 0 0,37 0 1 60,6 0 0 0,6 0 0 262144",
    # ether[0] & 1 = 0 and ip[16] >= 224
    "8,48 0 0 0,69 5 0 1,40 0 0 12,21 0 3 2048,48 0 0 30,53 0 1 224,6 0 0 262144,6 0 0 0",
    # tcp portrange 40000-40001 or ip6 proto 17
    "27,40 0 0 12,21 0 11 34525,48 0 0 20,21 0 5 6,40 0 0 54,53 0 1 40000,37 0 18 40001,40 0 0 56,53 15 17 40000,21 15 0 17,"
    "21 0 15 44,48 0 0 54,21 12 13 17,21 0 12 2048,48 0 0 23,21 0 10 6,40 0 0 20,69 8 0 8191,177 0 0 14,72 0 0 14,53 0 1 40000,"
    "37 0 3 40001,72 0 0 16,53 0 2 40000,37 1 0 40001,6 0 0 262144,6 0 0 0",
    # ip[2:2] - ((ip[0] & 0xf) << 2) != 20
    "13,40 0 0 12,21 0 10 2048,40 0 0 16,2 0 0 1,48 0 0 14,84 0 0 15,100 0 0 2,7 0 0 5,96 0 0 1,28 0 0 0,21 1 0 20,6 0 0 262144,"
    "6 0 0 0",
)

# For each option a value that is taken, behind what it has to stand with.
PROBES = {"filter": ("--filter", "1,6 0 0 0"), "rss": ("--rss", RSS_KEYS[0]), "table": ("--rss", RSS_KEYS[0], "--table", "0")}


def probe(name):
    """Words with which an option is taken, where there is such an option."""
    return PROBES.get(name, (f"--{name}", "1"))


# Filters.


NUMBERS = (0, 1, 2, 4, 8, 14, 20, 31, 32, 33, 64, 0x0800, 65535, 2**31, 2**32 - 1, 2**32 - 4)


def operand(rng, code, room):
    """The k of an instruction that is taken; a load's lies within most frames, and else anywhere."""
    if code in OF_MEMORY:
        return rng.choice((0, 1, 15))
    if code in (DIVIDE, REMAINDER):
        return rng.choice((1, 2, 3, 7, 2**32 - 1))
    if code in (SHIFT_LEFT, SHIFT_RIGHT):
        return rng.choice((0, 1, 8, 31))
    if code == JUMP:
        return rng.randint(0, room)
    if code in LENGTH_OF_LOAD or code == X_OF_HEADER:
        at_end = rng.choice((55, 56, 57, 58, 61, 102, 153, 154)) - rng.randint(0, 5)
        return rng.randrange(50) if rng.random() < 0.8 else rng.choice((at_end, at_end, at_end, 2**32 - 1))
    if code in LENGTH_OF_LOAD_BY_X:
        return rng.randrange(20) if rng.random() < 0.7 else 2**32 - rng.randint(1, 40)
    return rng.choice(NUMBERS) if rng.random() < 0.9 else rng.randrange(2**32)


def instruction(rng, code, room):
    """An instruction behind which there are so many, and one more."""
    if code & ~WITH_X in COMPARISONS:
        return code, rng.randint(0, min(room, 255)), rng.randint(0, min(room, 255)), operand(rng, code, room)
    jt, jf = (rng.randrange(256), rng.randrange(256)) if rng.random() < 0.05 else (0, 0)
    return code, jt, jf, operand(rng, code, room)


def random_filter(rng):
    """A program of instructions taken at random, few of which end it; it mostly answers some bits of A."""
    size = rng.choice((1, 2, 3, 5, 8, 8, 12, 20, 60)) if rng.random() < 0.97 else rng.choice((300, 1000, 4096))
    codes, ends = sorted(CODES - {RETURN_K, RETURN_A}) + sorted(BY_X_AND_ENDS) * 2, (RETURN_K, RETURN_A)
    if size > 60 or rng.random() < 0.2:  # only such as can't end it
        codes = [code for code in codes if code not in ENDING]
    front = [(0x00, 0, 0, 1)] if size > 60 else [(0xB1, 0, 0, 14)] if rng.random() < 0.3 else []
    last = [(0x54, 0, 0, 127), (RETURN_A, 0, 0, 0)] if rng.random() < 0.7 else [(rng.choice(ends), 0, 0, rng.choice((0, 1, 20, 64, 65, 262144, 2**32 - 1)))]
    rest = [rng.choice(codes) if rng.random() < 0.97 or size > 60 else rng.choice(ends) for _ in range(max(0, size - len(front) - len(last)))]
    return front + [instruction(rng, code, len(rest) - at + len(last) - 2) for at, code in enumerate(rest)] + last


def wrong_filter(rng, found):
    """One instruction becomes such that it isn't taken."""
    size, at = len(found), rng.randrange(len(found))
    far = size - 1 - at
    wrong = [(rng.choice((4, 8, 9, 10, 0x10, 0x8C, 0xB0, 255, 65535)), 0, 0, 0), (JUMP, 0, 0, rng.choice((far, far + 1, 2**32 - 1)))]
    wrong += [(rng.choice(sorted(OF_MEMORY)), 0, 0, rng.choice((16, 255, 2**32 - 1))), (rng.choice((DIVIDE, REMAINDER)), 0, 0, 0)]
    wrong += [(rng.choice((SHIFT_LEFT, SHIFT_RIGHT)), 0, 0, rng.choice((32, 33, 2**32 - 1))), (rng.choice(sorted(ARITHMETIC)), 0, 0, 0)]
    if far < 256:
        wrong += [(rng.choice(sorted(COMPARISONS)) + rng.choice((0, WITH_X)), *rng.choice(((far, 0), (0, far), (255, 255))), 0)]
    return found[:at] + [rng.choice(wrong)] + found[at + 1 :]


def text_of(found):
    return ",".join([str(len(found)), *(" ".join(map(str, one)) for one in found)])


def wrong_text(rng, text):
    """A text that is near to one that is taken."""
    front, _, rest = text.partition(",")
    last = text[: text.rindex(" ") + 1]
    others = ["", "0", front, f"{int(front) + 1},{rest}", f"{int(front) - 1},{rest}", text + ",", text + " ", text + "\n", " " + text, text + ",6 0 0 0"]
    others += [text.replace(" ", "  ", 1), text.replace(",", ", ", 1), text.replace(" ", "\t", 1), text.replace(",", ";", 1), "+" + text, "-" + text]
    others += [last + word for word in ("4294967296", "9999999999", "00000000000", "0x1", "-1", "+1", "1.0", "", "1 1")]
    others += ["1,6 256 0 0", "1,6 0 256 0", "1,65536 0 0 0", "1,6 0 0", "00000000001,6 0 0 0", "4097" + ",6 0 0 0" * 4097]
    return rng.choice(others)


def filter_text(rng):
    if rng.random() < 0.4:
        return rng.choice(COMPILED)
    found = random_filter(rng)
    if rng.random() < 0.04:
        found = wrong_filter(rng, found)
    text = text_of(found)
    if rng.random() < 0.02:
        text = "0" * (10 - len(text.split(",", 1)[0])) + text
    return wrong_text(rng, text) if rng.random() < 0.04 else text


# Keys and tables.


def rss_text(rng):
    text = rng.choice(RSS_KEYS) if rng.random() < 0.7 else rng.randbytes(40).hex()
    return rng.choice((text.upper(), text[1:], text + "0", "g" + text[1:], "", " " + text, "0x" + text[2:])) if rng.random() < 0.04 else text


def table_text(rng, queues):
    size = rng.choice((1, 1, 2, 3, 5, 7, 64, 127, 128))
    entries = [str(rng.randrange(queues)) for _ in range(size)]
    at = rng.randrange(size)
    if rng.random() < 0.1:
        entries[at] = entries[at].rjust(rng.choice((2, 3)), "0")
    if rng.random() < 0.05:
        entries[at] = rng.choice((str(queues), str(queues + 1), "63", "999", "", "+0", "-1", "0000", " 0", "0 ", "a", "4294967296"))
    if rng.random() < 0.02:
        entries = ["0"] * rng.choice((129, 130, 1000))
    return ",".join(entries) + ("," if rng.random() < 0.01 else "")


def is_table(text, queues):
    try:
        return max(table_of(text)) < queues
    except ValueError:
        return False


# Lines.


def value_words(rng, name, text):
    return [f"--{name}={text}"] if rng.random() < 0.3 else [f"--{name}", text]


def option_words(rng, name, value):
    return value_words(rng, name, rng.choice(("", "", "", "+", "0", "00")) + str(value))


def wrong_words(rng, command, taken):
    """A line that is no command."""
    words = [[], ["--help"], [command.title()], [command, command], [command, "--frob", "1"], [command, "--help"], [command, "x"]]
    for name in sorted(taken):
        good = list(probe(name))
        words += [[command, *good, f"--{name}", good[-1]], [command, *good[:-1]]]
        if name in RANGES:
            least, most = RANGES[name]
            bad = rng.choice((str(least - 1), str(most + 1), "", "x", "0x1", "1_0", " 1", "-0", "1.0", str(2**64)))
            words += [[command, f"--{name}", bad]]
    if "table" in taken:
        words += [[command, "--table", "0"], [command, "--queues", "4", "--table", "0,1"]]
    return rng.choice(words)


def chance(name, options, has_count):
    """How often an option is given. Of a seed without a count there are a thousand records, which takes the definitions long, and the program
    too where each round has few records and many queues, and so many threads that begin and end."""
    if name != "seed":
        return 0.3 if name in ("filter", "rss", "table") else 0.5
    if has_count:
        return 0.2
    return 0.05 if options.queues <= 4 * options.budget else 0


def shuffled(rng, groups):
    groups = list(groups)
    rng.shuffle(groups)
    return [word for group in groups for word in group]


def text_options(rng, taken, options):
    """Words of the filter, the key and the table, and the options with them; None where one of them is refused."""
    groups, is_taken = [], True
    if "filter" in taken and rng.random() < chance("filter", options, False):
        text = filter_text(rng)
        groups.append(value_words(rng, "filter", text))
        try:
            options = options._replace(filter=filter_of(text))
        except ValueError:
            is_taken = False
    if "rss" in taken and rng.random() < chance("rss", options, False):
        text = rss_text(rng)
        groups.append(value_words(rng, "rss", text))
        try:
            options = options._replace(rss=rss_key_of(text))
        except ValueError:
            is_taken = False
    if "table" in taken and rng.random() < (0.6 if options.rss else 0.005):
        text = table_text(rng, options.queues)
        groups.append(value_words(rng, "table", text))
        is_taken = is_taken and options.rss is not None and is_table(text, options.queues)
        options = options._replace(table=table_of(text)) if is_taken else options
    return groups, options if is_taken else None


def options_line(rng, command, taken):
    """The words of a command and its options, and what they stand for; `taken` are those that the program takes."""
    if rng.random() < 0.01:
        return wrong_words(rng, command, taken), None
    groups, options = [], Options(blocks=DEFAULT_BLOCKS if "blocks" in taken else None)
    for name in sorted(set(taken) & set(RANGES)):
        if rng.random() < chance(name, options, any(group[0].startswith("--count") for group in groups)):
            value = rng.choice(USUAL[name])
            options = options._replace(**{name: value})
            groups.append(option_words(rng, name, value))
    more, options = text_options(rng, taken, options)
    if options and options.filter and "taps" in taken and not any(group[0].startswith("--taps") for group in groups) and rng.random() < 0.7:
        options = options._replace(taps=rng.choice((1, 2)))
        groups.append(option_words(rng, "taps", options.taps))
    return [command] + shuffled(rng, groups + more) + ["--"] * (rng.random() < 0.02), options
