#!/usr/bin/env python3
"""Sessions of the program `sheet` with the answers they must get: writes crates/sessions/stdin, and prints what the gate prints over it.

A session is a line of three words, parted by blanks: the bytes of its input, the bytes of its answers and its kind. Behind it stand
exactly these bytes of input and then of answers. Each kind draws from a seed of its own, so a change to one leaves the others as they were.
"""

import pathlib
import random

import text
from rules import nearest

SEED = 199312
FILE = pathlib.Path(__file__).resolve().parent.parent / "crates" / "sessions" / "stdin"

STRONGEST = 32767  # the greatest word of a reading
MISSING = -32768  # the word of no reading


class Session:
    """Lines, and the reader they lead to, so that later lines can aim at what stands."""

    def __init__(self, *lines):
        self.lines, self.reader = [], text.Reader()
        self.put(*lines)

    def put(self, *lines):
        for line in lines:
            line = line if isinstance(line, bytes) else line.encode("ascii")
            self.lines.append(line)
            self.reader.answer(line)

    def readings(self, words):
        self.put(*(f"R,{word}" for word in words))

    def sheet(self):
        return self.reader.sheet

    def bytes(self, ended=True):
        return b"\n".join(self.lines) + (b"\n" if ended else b"")


# ---- figures, fires and loads to draw from


def member_line(figures):
    return "M," + ",".join(map(str, figures))


def figures(rng):
    """Figures of a member that is made."""
    section_factor = rng.choice([10, 500, 200, rng.randint(10, 99), rng.randint(100, 500), rng.randint(100, 500)])
    f = rng.choice([200, 235, 275, 355, 460, 500, rng.randint(200, 500), rng.randint(200, 500)])
    s = rng.choice([1_000_000, rng.randint(1, 60), rng.randint(1, 10 ** rng.randint(2, 9)), rng.randint(1, 10**6)])
    near = max(1, min(10**9, s * rng.randint(3, 60) // 10))
    k = rng.choice([0, 0, near, near, near, rng.randint(1, 10 ** rng.randint(1, 9))])
    return section_factor, rng.randint(1, 5), f, s, k


def quick_figures(rng):
    """Figures of a member that heats in few steps."""
    return rng.randint(320, 500), rng.choice([3, 4, 5, 5]), *figures(rng)[2:]


def strut_figures(rng):
    """Figures of a quick member with a buckling load near its strength, so that all three rules of the check bind somewhere."""
    section_factor, seconds, f, s, _ = quick_figures(rng)
    return section_factor, seconds, f, s, max(1, min(10**9, s * rng.randint(3, 60) // 10))


def fire(rng, figures, count):
    """Words of a fire that leaves the member anywhere from lukewarm to far too hot."""
    per_degree = 600 * 785 // (figures[0] * figures[1]) + 1
    word = rng.choice([60, 200, 450, 600, 700, 800, 1000, 1500]) * per_degree // count
    shape = rng.choice(["steady", "growing", "sinking", "hump", "saw", "wild", "faint", "rough"])
    found = []
    for k in range(count):
        here = {
            "steady": word,
            "growing": 2 * word * (k + 1) // (count + 1),
            "sinking": 2 * word - 3 * word * k // count,
            "hump": 2 * word if 2 * k < count else -word,
            "saw": 2 * word if k % 2 == 0 else -word // 3,
            "wild": rng.randint(-STRONGEST, STRONGEST),
            "faint": rng.randint(-40, 60),
            "rough": rng.randint(0, 2 * word),
        }[shape]
        found.append(max(-STRONGEST, min(STRONGEST, here)))
    return found


def bound(sheet, degree):
    """The greatest load under which the member passes at a degree."""
    low, high = 0, 10**10
    while high - low > 1:
        middle = (low + high) // 2
        if sheet.member.passes(sheet.steel, middle, nearest(degree)):
            low = middle
        else:
            high = middle
    return low


def whole(millidegrees):
    """Rounded up to a whole degree."""
    return -(-millidegrees // 1000)


def load(rng, sheet):
    s = sheet.member.s
    step = whole(rng.choice(sheet.course))
    return rng.choice([
        lambda: 0,
        lambda: s,
        lambda: s * rng.randint(0, 100) // 100,
        lambda: s * rng.randint(0, 60) // 100,
        lambda: bound(sheet, 20),
        lambda: bound(sheet, 20) + 1,
        lambda: bound(sheet, step),
        lambda: bound(sheet, step) + 1,
        lambda: bound(sheet, rng.randint(20, 1200)),
        lambda: rng.randint(0, 10 ** rng.randint(1, 10) - 1),
    ])()


def call(rng, session, letters="HHHBBLLLQQQ"):
    sheet = session.sheet()
    standing = sheet.standing()
    left = len(sheet.fire.pairs) - standing
    letter = rng.choice(letters)
    if letter == "H":
        number = rng.choice([0, 1, 1, 2, 3, left, left, left + 1, rng.randint(0, left + 3)])
    elif letter == "B":
        number = rng.choice([0, 1, 1, 2, standing, standing + 1, rng.randint(0, standing + 1)])
    else:
        number = load(rng, sheet)
    session.put("Q" if letter == "Q" else f"{letter},{number}")


def calls(rng, session, count, letters="HHHBBLLLQQQ"):
    for _ in range(count):
        call(rng, session, letters)


def begun(rng, readings, quick=False):
    """A session with a member and its readings, not yet open."""
    chosen = (quick_figures if quick else figures)(rng)
    session = Session(member_line(chosen))
    session.readings(fire(rng, chosen, readings))
    return session


def loaded(rng, session):
    """A load that the cold member carries and the hot one does not: without one, no step ever fails."""
    session.put(f"L,{bound(session.sheet(), rng.randint(150, 900))}")


def aimed(rng, chosen, target):
    """Words that bring a member to exactly this temperature: strong ones, then one that fits, behind a small one if none fits yet."""
    sheet = text.new_sheet(*chosen)

    def end(word):
        sheet.fire.pairs.append(word.to_bytes(2, "big", signed=True))
        return 0 if sheet.step() else sheet.course[-1]

    def undo(ended):
        sheet.fire.pairs.pop()
        if ended:
            sheet.course.pop()

    found = []
    while True:
        short = target - sheet.course[-1]
        capacity = sheet.steel.capacity(sheet.course[-1] // 1000)
        fitting = short * capacity * 785 // (chosen[0] * chosen[1] * 1000)
        if fitting <= STRONGEST:
            ended = end(fitting)
            if ended == target:
                return found + [fitting]
            undo(ended)
            # near the aim only a little, so that the next fitting word starts from another temperature
            word = rng.randint(fitting // 2, max(fitting // 2 + 1, fitting - 1)) if fitting > 50 else -rng.randint(1, 300)
        else:
            word = rng.randint(STRONGEST * 3 // 4, STRONGEST)
        if not end(word):
            sheet.fire.pairs.pop()
            continue
        found.append(word)


# ---- bad lines, whatever the reader awaits

GOOD_MEMBER = "M,200,5,235,1000000,2000000"
MEMBER = GOOD_MEMBER.encode("ascii")

BAD = [
    # nothing, and what looks like nothing
    b"", b" ", b"\t", b"\r", b"\x00", b",", b",,,,,", b"-", b"0", b"17", b"\x0b", b"\x0c", b"\x1a", b"\xff", b"\x85",
    # blanks, carriage returns, signs and quotes around good lines
    b" Q", b"Q ", b"Q\r", b"Q\x00", b"\x00Q", b"Q\t", b"H, 1", b"H ,1", b"H,1 ", b" H,1", b"H,1\r", b"H,1\x00", b"H,+1", b"R,+5", b"R, 5",
    b"R,5\r", b"R,5 ", b"R,- 5", b"L,+0", b"L,0\r", b"B,0 ", b"B,+0", b'"Q"', b'H,"1"', b"H,1;", b"H;1", b"H:1", b"H.1", b"H,1.", b"H,1.0",
    b"#Q", b"Q\rQ", b"H,1\rH,1", b"Q\x0bQ", b"Q\x1cQ",
    # numbers of another script or another form
    b"H,1_0", b"H,0x1", b"H,1e1", b"H,1E1", b"H,one", b"H,\xd9\xa1", b"H,\xef\xbc\x91", b"R,\xe2\x88\x925", b"H,\xb2", b"L,1'000",
    b"H,:", b"H,/", b"Q\xc3\xa4", b"\xc3\x96", b"\xe2\x80\xa8Q", b"\xef\xbb\xbfQ", b"\xd1Q", b"\xcd,200,5,235,1000000,0",
    b"H,\xb1", b"H\xac1", b"\xc8,1",
    # lower case, other letters, two letters, no letter
    b"q", b"h,1", b"b,0", b"l,0", b"r,5", b"m,200,5,235,1000000,0", b"A", b"E", b"E,17,1", b"X,1", b"Z", b"N,0", b"S,1", b"K,0", b"P,5",
    b"@", b"QQ", b"HH,1", b"HB,1", b"LL,0", b"RR,5", b"Q5", b"H1", b"B0", b"L0", b"R5", b"1,H", b",Q", b",H,1", b"none",
    # fields missing, empty or too many
    b"M", b"R", b"L", b"H", b"B", b"M,", b"R,", b"L,", b"H,", b"B,", b"Q,", b"Q,1", b"Q,,", b"H,1,", b"H,,1", b"H,1,2", b"B,0,", b"B,0,0",
    b"L,0,", b"L,,0", b"L,1,1", b"R,5,", b"R,,5", b"R,5,5", b"R,5,-5", b"M,200", b"M,200,5,235", b"M,200,5,235,1000000",
    b"M,200,5,235,1000000,", b"M,200,5,235,1000000,0,", b"M,200,5,235,1000000,0,0", b"M,,5,235,1000000,0", b"M,200,,235,1000000,0",
    b"M,200,5,,1000000,0", b"M,200,5,235,,0", b"M,200,5,235,1000000,none", b"M 200,5,235,1000000,0", b"M,200 5,235,1000000,0",
    b"M,200,5,235,1000000 0", b"M,200,5,235,1000000,0\r", b" M,200,5,235,1000000,0", b"M,200,5,235,1000000,0 ",
    b"\xef\xbb\xbfM,200,5,235,1000000,0",
    # a minus where none may stand, or more than one, or alone
    b"H,-1", b"H,-0", b"B,-1", b"B,-0", b"L,-1", b"L,-0", b"M,-200,5,235,1000000,0", b"M,200,5,235,1000000,-1", b"M,200,-5,235,1000000,0",
    b"M,200,5,235,1000000,-0", b"R,-", b"R,--5", b"R,5-", b"R,-5-", b"R,-+5", b"R,+-5", b"-R,5", b"R-5", b"R,1-2",
    # too many digits
    b"H,00000000001", b"H,10000000000", b"B,00000000000", b"B,18446744073709551616", b"L,00000000000", b"L,10000000000", b"L,99999999999",
    b"R,00000000005", b"R,-00000000005", b"R,18446744073709551621", b"M,00000000200,5,235,1000000,0", b"M,200,00000000005,235,1000000,0",
    b"M,200,5,00000000235,1000000,0", b"M,200,5,235,00001000000,0", b"M,200,5,235,1000000,00000000000", b"M,200,5,235,10000000000,0",
    b"M,200,5,235,1000000,18446744073709551616", b"M,18446744073709551816,5,235,1000000,0",
    # numbers that do not fit
    b"R,32768", b"R,-32769", b"R,65535", b"R,65536", b"R,-65536", b"R,65541", b"R,2147483648", b"R,-2147483648", b"R,4294967295",
    b"R,4294967301", b"R,9999999999", b"R,-9999999999", b"R,0000032768", b"R,-0000032769", b"R,99999", b"R,-32770", b"R,-99999",
    b"H,4294967296", b"H,4294967297", b"H,9999999999", b"H,4294967300", b"H,8589934592", b"B,4294967296", b"B,4294967297", b"B,9999999999",
]


# ---- kinds; each takes its generator and the place of the session within its kind


def example(rng, i):
    session = Session(GOOD_MEMBER, "R,1000", "R,1000", "R,-3", "L,300000", "H,3", "Q", "B,1", "Q", "H,5")
    if i == 1:
        session.put("Q", "L,1000000", "L,999999", "Q", "B,3", "B,4", "Q")
    return session.bytes(ended=i != 2)


def burn(rng, i):
    session = begun(rng, rng.randint(3, 9), quick=i % 4 > 0)
    if i % 3:
        loaded(rng, session)
        session.put(f"H,{rng.randint(1, 9)}", "Q")
    calls(rng, session, rng.randint(4, 9))
    session.put("Q")
    return session.bytes()


def cooling(rng, i):
    """Heated, then cooled, down to 20 degrees and not below."""
    chosen = quick_figures(rng)
    session = Session(member_line(chosen))
    hot = [rng.randint(1, 20000) for _ in range(rng.randint(0, 3))]
    cold = [-rng.choice([1, 3, rng.randint(1, 60), rng.randint(1, 9000), STRONGEST]) for _ in range(rng.randint(2, 5))]
    warm = [rng.randint(0, 300) for _ in range(rng.randint(0, 2))]
    session.readings(hot + cold + warm)
    session.put(f"L,{bound(session.sheet(), rng.randint(100, 700))}")
    for _ in range(rng.randint(2, 4)):
        session.put(f"H,{rng.randint(1, 3)}", "Q")
    calls(rng, session, rng.randint(1, 3), "HBQ")
    return session.bytes()


EDGES = [
    [0, 9, 10, 11, 499, 500, 501, 65736, 4294967496, 9999999999,
     "0000000000", "0000000009", "0000000010", "0000000500", "0000000501", "000200"],
    [0, 1, 2, 4, 5, 6, 10, 65541, 4294967301, 9999999999, "0000000000", "0000000001", "0000000005", "0000000006", "05"],
    [0, 199, 200, 201, 499, 500, 501, 65771, 4294967531, 9999999999,
     "0000000000", "0000000199", "0000000200", "0000000500", "0000000501", "0235"],
    [0, 1, 2, 999999999, 1000000000, 1000000001, 4294967296, 4294967297, 5294967296, 9999999999, "0000000000", "0000000001", "0001000000"],
    [0, 1, 2, 999999999, 1000000000, 1000000001, 4294967296, 4294967297, 5294967296, 9999999999, "0000000000", "0000000001", "0002000000"],
]
EDGE_CASES = [(place, value) for place, values in enumerate(EDGES) for value in values]
USUAL = (200, 5, 235, 1000000, 2000000)


def figure(rng, i):
    """One figure at the edge of its range; the next lines show what member there is."""
    place, value = EDGE_CASES[i % len(EDGE_CASES)]
    chosen = list(USUAL if i < len(EDGE_CASES) else figures(rng))
    chosen[place] = value
    session = Session(member_line(chosen), f"R,{rng.randint(-50, STRONGEST)}", "R,9999")
    if session.sheet() is None:
        if i % 3 == 0:
            session.put("Q", "H,1")
        session.put(member_line(figures(rng)), "R,5000", "R,-1")
    sheet = session.sheet()
    session.put(f"L,{bound(sheet, 20) + 1}", f"L,{bound(sheet, rng.randint(100, 900))}", "H,2", "Q")
    return session.bytes()


FAULTS = [
    [0, 9, 501, 4294967496, 9999999999],
    [0, 6, 4294967301, 9999999999],
    [0, 199, 501, 4294967531, 9999999999],
    [0, 1000000001, 5294967296, 9999999999],
    [1000000001, 4294967297, 9999999999],
]


def faulty(rng, places):
    chosen = list(figures(rng))
    for place in places:
        chosen[place] = rng.choice(FAULTS[place])
    return member_line(chosen)


def causes(rng, i):
    """Several figures out of range at once: each set of two and more."""
    sets = [[place for place in range(5) if n >> place & 1] for n in range(32)]
    several = [places for places in sets if len(places) > 1]
    session = Session()
    for j in range(rng.randint(2, 4)):
        session.put(faulty(rng, several[(i * 3 + j) % len(several)]))
    session.put(member_line(figures(rng)), "Q")
    return session.bytes()


def awaited(rng, i):
    """Members refused again and again, and lines that are out of place until one is made."""
    session = Session()
    for _ in range(rng.randint(2, 7)):
        session.put(rng.choice(["Q", "H,1", "H,0", "B,0", "B,1", "L,0", f"L,{rng.randint(0, 10**6)}", "R,5", "R,-32768"])
                    if rng.randrange(3) == 0 else faulty(rng, rng.sample(range(5), rng.choice([1, 1, 2]))))
    if i % 5:
        chosen = figures(rng)
        session.put(member_line(chosen))
        session.readings(fire(rng, chosen, rng.randint(1, 4)))
        calls(rng, session, rng.randint(1, 4))
    return session.bytes()


def again(rng, i):
    """A second member, good or not, among the readings and in the open sheet: never in place."""
    session = begun(rng, rng.randint(1, 3))
    if i % 3 != 1:
        session.put(member_line(figures(rng)) if i % 2 else faulty(rng, [rng.randrange(5)]))
        session.readings([rng.randint(-500, 9999)])
    calls(rng, session, rng.randint(1, 3))
    if i % 3:
        session.put("Q", session.lines[0] if i % 4 == 1 else member_line(figures(rng)), "Q")
        calls(rng, session, rng.randint(1, 3))
    return session.bytes()


def form(rng, i):
    """Bad lines in each of the reader's three states; what follows shows that nothing changed."""
    group = [BAD[(i // 3 * 3 + j) % len(BAD)] for j in range(3)]
    state = i % 3
    chosen = quick_figures(rng)
    words = fire(rng, chosen, 3)
    session = Session()
    if state == 0:
        session.put(*group, member_line(chosen))
        session.readings(words[:2])
        session.put("H,9", "Q")
    elif state == 1:
        session.put(member_line(chosen))
        for word, line in zip(words, group):
            session.put(f"R,{word}", line)
        session.readings([rng.randint(-99, 9999)])
        session.put("H,9", "Q")
    else:
        session.put(member_line(chosen))
        session.readings(words)
        loaded(rng, session)
        session.put(f"H,{rng.randint(1, 3)}", "Q", *group[:2])
        call(rng, session)
        session.put(group[2], "Q")
    return session.bytes()


ALPHABET = b"MRLHBQ,,,--0123456789 +\r\x00qhE\xff\xac.;"


def changed(rng, line):
    """A line with one or two bytes changed: often bad, now and then good with another number."""
    line = bytearray(line)
    for _ in range(rng.choice([1, 1, 1, 2])):
        place = rng.randint(0, len(line))
        what = rng.randrange(6)
        if what == 0:
            line.insert(place, rng.choice(ALPHABET))
        elif what == 1 and line:
            del line[min(place, len(line) - 1)]
        elif what == 2 and line:
            line[min(place, len(line) - 1)] = rng.choice(ALPHABET)
        elif what == 3 and line:
            line.insert(place, line[min(place, len(line) - 1)])
        elif what == 4 and len(line) > 1:
            place = min(place, len(line) - 2)
            line[place], line[place + 1] = line[place + 1], line[place]
        elif line:
            line[min(place, len(line) - 1)] ^= 1 << rng.randrange(8)
    return bytes(line).replace(b"\n", b"\r")


def changes(rng, i):
    """An ordinary session, some of its lines changed."""
    session = begun(rng, rng.randint(2, 5), quick=True)
    loaded(rng, session)
    calls(rng, session, rng.randint(3, 6), "HHHBLLQQQ")
    lines = list(session.lines)
    # the member only now and then, since without it every line is bad
    first = 0 if i % 6 == 0 else 1
    for place in rng.sample(range(first, len(lines)), rng.randint(1, 3)):
        lines[place] = changed(rng, lines[place])
    return b"\n".join(lines) + b"\n"


def noise(rng, i):
    """Bytes without sense, behind a member or before it."""
    session = begun(rng, 1) if i % 2 else Session()
    for _ in range(rng.randint(2, 6)):
        length = rng.choice([1, 2, 3, 4, 5, 8, 14])
        if i % 4 < 2:
            line = bytes(rng.choice(ALPHABET) for _ in range(length))
        else:
            line = bytes(rng.randrange(256) for _ in range(length)).replace(b"\n", b"\r")
        session.put(line)
    session.put("Q", GOOD_MEMBER, "Q")
    return session.bytes()


def order(rng, i):
    """Good lines in any order."""
    session = Session()
    if i % 3:
        session.put(member_line(figures(rng)))
    for _ in range(rng.randint(6, 12)):
        letter = rng.choice("MRRRRLHBQ")
        if letter == "M":
            session.put(member_line(figures(rng)))
        elif letter == "R":
            session.readings([rng.choice([0, -1, 1, rng.randint(-999, 9999), rng.randint(-STRONGEST, STRONGEST)])])
        elif letter != "Q" and session.sheet() is None:
            session.put(f"{letter},{rng.randint(0, 3)}")
        else:
            session.put("Q") if letter == "Q" else call(rng, session, letter)
    return session.bytes()


WORDS = [
    "32767", "-32767", "-32768", "32766", "-1", "1", "0", "-0", "00", "-00", "0000000000", "-0000000000", "0000032767", "-0000032767",
    "-0000032768", "0000000001", "-0000000001", "00255", "256", "-256", "127", "128", "-128", "-129", "255", "32512", "-32513",
]
COUNTS = [
    "4294967295", "0", "00", "0000000000", "0000000001", "0000000002", "4294967294", "2147483648", "2147483647", "65536", "65537", "4096",
    "4097", "1000000000", "256", "257", "01",
]
LOADS = [
    "9999999999", "4294967295", "4294967296", "4294967297", "4295267296", "1000000000", "1000000001", "0000000000", "0000000001", "00", "0",
    "0000300000", "65536", "1",
]


def wide(rng, i):
    """Words, steps and loads at the edges of what fits, and numbers with zeros before them."""
    session = Session(member_line(USUAL if i % 3 == 0 else figures(rng)))
    words = [WORDS[(2 * i + j) % len(WORDS)] for j in range(2)] + rng.sample(WORDS, 2)
    session.readings(words)
    session.put(f"B,{COUNTS[i % len(COUNTS)]}", f"L,{LOADS[i % len(LOADS)]}")
    if i % 3 == 0:
        session.readings(["-0000000007"])
    for _ in range(rng.randint(2, 4)):
        letter, numbers = rng.choice([("B", COUNTS), ("B", COUNTS), ("L", LOADS)])
        session.put(f"H,{rng.choice(COUNTS)}", "Q", f"{letter},{rng.choice(numbers)}")
    return session.bytes()


# around the longest line more than once, the very long ones once
LENGTHS = [
    56, 57, 63, 64, 65, 79, 80, 81, 82, 83, 127, 128, 129, 159, 160, 161, 162, 163, 240, 241, 255, 256, 257, 258, 500,
    80, 81, 82, 160, 161, 162, 240, 243, 1024, 2049, 4097, 6000,
]


def long(rng, i):
    """Long lines that would hold good ones if they were cut."""
    length = LENGTHS[i]
    tail = [b"Q", b"H,1", b"R,5", b"B,0", b"L,0", MEMBER][i % 6]
    fill = [b"0", b"Q", b"R,5,", b" ", b"H,00000001,", b"x", b"\x00", b"\xff", b",", b"M,200,5,235,1000000,0,"][i % 10]
    line = (fill * length)[: length - len(tail)] + tail
    if i % 7 == 3:
        line = b"L," + b"0" * (length - 2)
    if i % 7 == 5:
        line = b"H,1" + b" " * (length - 3)
    state = i % 3
    if state == 0:
        session = Session(line, GOOD_MEMBER, "R,900", "H,2", "Q")
    elif state == 1:
        session = Session(GOOD_MEMBER, "R,900", line, "R,-900", "H,3", "Q")
    else:
        session = Session(GOOD_MEMBER, "R,900", "H,1", line, "Q", line[:81] if length < 200 else "B,1", "H,1")
    return session.bytes(ended=i % 4 != 2)


def longest(rng, i):
    """The longest lines in form: every number with ten digits."""
    chosen = [f"{value:010}" for value in figures(rng)]
    session = Session(member_line(chosen))
    for _ in range(rng.randint(2, 4)):
        word = rng.randint(-STRONGEST, STRONGEST)
        session.put(f"R,{'-' if word < 0 else ''}{abs(word):010}")
    sheet = session.sheet()
    session.put(f"B,{1:010}", f"L,{bound(sheet, 20) + 1:010}", f"R,{5:010}", f"L,{bound(sheet, rng.randint(20, 800)):010}")
    session.put(f"H,{rng.randint(0, 6):010}", "Q", f"B,{rng.randint(0, 2):010}", "Q")
    return session.bytes(ended=i % 2 == 0)


END_LINES = [
    ["Q"], ["H,1"], ["B,0"], ["B,1"], ["L,0"], ["L,9999999999"], ["R,5"], ["R,"], ["q"], ["\r"], ["Q\r"], [GOOD_MEMBER], [""], ["", ""],
    ["", "Q"], ["", "", "Q", "", ""], ["E"], ["H,4294967296"], ["R,-"], ["Q", "Q"],
    ["0" * 80], ["Q" * 81], ["R," + "5" * 300],
]
BARE = [
    b"", b"\n", b"\n\n", b"\n" * 11, b"\n" * 130, b"\r\n", b"\r", b"\r\n\r\n", b" ", b" \n", b"\x00", b"\x00\n", b"\xff", b"-\n", b"0\n",
    b"Q", b"Q\n", b"\nQ\n", b"M", b"M,\n", b"A\n", b"A\n\n", b"A", b"\nA", b"R,1", b"R,1\n",
    b"M,9,5,235,1000000,0", b"M,9,5,235,1000000,0\n", MEMBER, MEMBER + b"\n", MEMBER + b"\n\n", MEMBER + b"\r\n", b"\n" + MEMBER,
    MEMBER + b"\nR,1", MEMBER + b"\nR,1\n", MEMBER + b"\nQ\nQ\nQ\n", MEMBER + b"\r\nR,1\r\nH,1\r\nQ\r\n",
]


def bare(rng, i):
    """Hardly a session: nothing, line feeds, one line."""
    return BARE[i]


def ends(rng, i):
    """The last line with a line feed and without."""
    session = begun(rng, rng.randint(1, 3))
    if i // 2 // len(END_LINES) % 2:
        calls(rng, session, rng.randint(1, 3))
    session.put(*END_LINES[i // 2 % len(END_LINES)])
    return session.bytes(ended=i % 2 == 0)


def stops(rng, i):
    """A missing reading, a step too hot, the end of the record: met, met again, gone back from."""
    chosen = rng.randint(470, 500), 5, *figures(rng)[2:]
    words = fire(rng, chosen, rng.randint(3, 6))
    what = i % 4
    if what in (0, 3):
        words[rng.randrange(len(words))] = MISSING
    if what in (1, 3):
        place = rng.randint(0, len(words))
        words[place:place] = [rng.randint(30000, STRONGEST) for _ in range(rng.randint(6, 9))]
    session = Session(member_line(chosen))
    session.readings(words)
    loaded(rng, session)
    session.put(f"H,{rng.randint(1, len(words))}", f"H,{len(words) + rng.randint(0, 2)}", "Q", f"H,{rng.randint(0, 2)}")
    calls(rng, session, rng.randint(1, 3), "BBLQ")
    session.put(f"H,{rng.randint(0, len(words) + 1)}", "Q", "H,1")
    return session.bytes()


def top(rng, i):
    """A step that ends at 1,200 degrees stands; one that would end a thousandth above is stopped."""
    chosen = quick_figures(rng)
    target = 1_200_000 if i % 3 else rng.randint(1_190_000, 1_199_999)
    session = Session(member_line(chosen))
    words = aimed(rng, chosen, target)
    # nothing or a loss, which stands; a little more, which does not; then anything
    tail = [rng.choice([0, -1]), 0, 1, rng.choice([1, -500, MISSING, STRONGEST]), 2]
    if i % 3 == 2:
        words[-1] += 1
    session.readings(words + tail)
    session.put(f"L,{rng.choice([0, 1, bound(session.sheet(), rng.randint(900, 1200))])}", f"H,{len(words)}", "Q")
    session.put(f"H,{rng.randint(1, 4)}", "Q", f"B,{rng.randint(1, 3)}", f"H,{rng.randint(1, 9)}", "Q")
    return session.bytes()


def backs(rng, i):
    """Heated past the end, taken back to nothing and beyond, heated again."""
    session = begun(rng, rng.randint(2, 6), quick=True)
    readings = len(session.sheet().fire.pairs)
    if i % 3 == 0:
        session.put(rng.choice(["B,0", "H,0", "B,1", "B,4294967295"]))
    if i % 4:
        loaded(rng, session)
    session.put(f"H,{readings + rng.randint(-1, 3)}", "Q")
    for _ in range(rng.randint(2, 3)):
        standing = session.sheet().standing()
        session.put(f"B,{rng.choice([0, 1, standing, standing, standing + 1, max(0, standing - 1)])}")
        if rng.randrange(2):
            session.put("Q")
        session.put(f"H,{rng.choice([0, 1, readings, readings + 1, 4294967295])}")
    session.put("Q")
    return session.bytes()


def limit(rng, i):
    """The greatest load that the cold member carries, and one more."""
    chosen = figures(rng) if i % 3 == 0 else strut_figures(rng)
    session = Session(member_line(chosen))
    most = bound(session.sheet(), 20)
    session.put(f"L,{most + 1}", "R,900", f"L,{most}", "Q", f"L,{most + 1}", f"L,{most + rng.choice([2, 9999, 10**9])}")
    if i % 2:
        session.put(f"L,{max(0, most - 1)}", "Q", f"L,{chosen[3]}", f"L,{chosen[3] + 1}", "Q")
    else:
        session.put("H,1", "Q", f"L,{max(0, most * rng.randint(50, 99) // 100)}", "Q")
    return session.bytes()


def last(rng, i):
    """The greatest load at which the hottest step still passes, and one more."""
    chosen = quick_figures(rng) if i % 3 == 0 else strut_figures(rng)
    session = Session(member_line(chosen))
    session.readings(fire(rng, chosen, rng.randint(3, 6)))
    session.put("H,9")
    sheet = session.sheet()
    most = bound(sheet, whole(sheet.hottest()))
    session.put(f"L,{most}", "Q", f"L,{most + 1}", "Q")
    if i % 2:
        session.put("B,1", "Q", f"L,{bound(sheet, whole(sheet.course[-1]))}", "Q", "H,1", "Q")
    return session.bytes()


def degree(rng, i):
    """A step that ends at exactly the critical temperature passes; the next, a thousandth or so above, fails."""
    chosen = quick_figures(rng) if i % 3 == 0 else strut_figures(rng)
    probe = text.new_sheet(*chosen)
    probe.put_load(bound(probe, rng.randint(100, 1100)))
    critical = probe.critical()
    words = aimed(rng, chosen, 1000 * critical - (i % 4 == 3))
    session = Session(member_line(chosen))
    session.readings(words + [1, -3, 2])
    session.put(f"L,{probe.load}", f"H,{len(words)}", "Q", "H,1", "Q")
    if i % 2:
        session.put("H,1", "Q", "B,2", "Q", f"L,{min(10**10 - 1, probe.load + 1)}", "Q")
    return session.bytes()


# where a formula of the heat capacity ends or is steep
BENDS = [20, 21, 599, 600, 601, 733, 734, 735, 736, 737, 899, 900, 901, 1198, 1199, 1200]


def bends(rng, i):
    """A step that starts at a bend of the heat capacity."""
    chosen = quick_figures(rng)
    start = 1000 * BENDS[i % len(BENDS)] + rng.choice([0, 999, rng.randint(0, 999)])
    words = aimed(rng, chosen, min(1_200_000, start))
    session = Session(member_line(chosen))
    session.readings(words + [rng.randint(-6000, 6000), rng.randint(-300, 300)])
    session.put(f"H,{len(words)}", "Q", "H,1", "Q", "H,1", "Q")
    return session.bytes()


# the degrees of Table 3.1 behind its first
ROWS = [100, 200, 300, 400, 500, 600, 700, 800, 900, 1000, 1100, 1200]


def rows(rng, i):
    """Critical temperatures at the rows of the table and beside them: of ties for the strength, of slender struts for the stiffness."""
    s, k = rng.choice([(10**4, 0), (10**6, 0), (10**9, 0)]) if i % 2 else (10**9, rng.choice([10**4, 10**5]))
    session = Session(member_line((200, 5, rng.choice([200, 235, 500]), s, k)))
    for j in range(3):
        degree = ROWS[(i // 2 * 3 + j) % len(ROWS)] + (i // 8 % 3 + 1) % 3 - 1
        most = bound(session.sheet(), degree)
        session.put(f"L,{most}", "Q", f"L,{most + 1}", "Q")
    return session.bytes()


def shift(rng, i):
    """Loads that move the first failing step to and fro along a growing fire."""
    chosen = quick_figures(rng) if i % 3 == 0 else strut_figures(rng)
    count = rng.randint(4, 8)
    share = rng.choice([700, 900, 1200]) * 600 * 785 // (chosen[0] * chosen[1] * count)
    session = Session(member_line(chosen))
    words = [max(-STRONGEST, min(STRONGEST, share * rng.randint(5, 15) // 10)) for _ in range(count)]
    if i % 2:
        words.insert(rng.randrange(2, count), -rng.randint(1, 9000))
    session.readings(words)
    session.put(f"H,{len(words)}")
    sheet = session.sheet()
    for _ in range(rng.randint(3, 5)):
        step = rng.choice(sheet.course)
        session.put(f"L,{bound(sheet, whole(step)) + rng.choice([0, 0, 1, 1])}", "Q")
        if rng.randrange(4) == 0:
            session.put(f"B,{rng.randint(0, 2)}", "Q")
    return session.bytes()


def kept(rng, i):
    """Loads and backs refused among the readings leave room for more readings."""
    session = begun(rng, rng.randint(1, 3))
    sheet = session.sheet()
    for _ in range(rng.randint(1, 3)):
        refused = [f"B,{rng.choice([1, 2, 4096, 4294967295])}", f"L,{rng.choice([bound(sheet, 20) + 1, sheet.member.s + 1, 9999999999])}"]
        session.put(rng.choice(refused))
        session.readings(rng.randint(-200, STRONGEST) for _ in range(rng.randint(1, 2)))
    calls(rng, session, rng.randint(2, 4), "HHQLB")
    session.put("H,99", "Q")
    return session.bytes()


OPENERS = ["L,0", "H,0", "H,1", "B,0", "Q", "H,4294967295", "L,00"]


def opened(rng, i):
    """Each line that opens the sheet, with and without readings before it; then readings are out of place."""
    chosen = figures(rng)
    session = Session(member_line(chosen))
    session.readings(fire(rng, chosen, 3)[: i // len(OPENERS) % 4])
    session.put(OPENERS[i % len(OPENERS)], f"R,{rng.randint(-9, 9999)}")
    if i % 2:
        session.put(rng.choice(["L,9999999999", "B,1", "B,9"]), "R,1")
    session.put("H,2", "R,-32768", "Q")
    return session.bytes()


def full(rng, i):
    """Records of 4,096 readings, one fewer, and readings past them."""
    session = Session("M,500,5,235,1000000,2000000" if i % 2 else "M,500,5,500,1000000,0")
    if i == 0:
        session.readings([0] * 4096)
        session.put("H,4096", "Q", "H,0", "H,1", "B,1", "H,2", "B,4097", "B,4096", "B,1", "Q", "H,4294967295", "B,1", "H,1", "H,1", "Q")
    elif i == 1:
        # slowly up to the failing step, far down the record
        session.readings([27] * 4094)
        session.put("L,1000000", "B,1")
        session.readings([-9, 9, 9])
        session.put("R,-32768", "R,32768", "R", "L,999999", "B,4096", "R,0", "L,250000", "R,0")
        session.put("H,4000", "Q", "H,96", "Q", "H,1", "L,100000", "Q")
    elif i == 2:
        session.readings([5] * 4095)
        session.put("L,1000001", "R,-32768", "R,5", "H,4095", "H,1", "Q", "B,5", "H,9")
    elif i == 3:
        session.readings([1] * 4095)
        session.put("H,4095", "Q", "H,1", "H,0", "R,1", "B,4095", "H,4294967295", "L,300000", "Q")
    elif i == 4:
        session.readings([7] * 4096)
        session.put("R,7", "R,-7", "R,x", "Q", "R,7", "H,9999", "Q", "L,400000", "Q", "B,4000", "Q", "H,4000", "H,1")
    else:
        # warm at the last reading, which is then too strong
        session.readings([58] * 4095)
        session.put("R,32767", "R,0", "B,4294967295", "R,0", "L,40000", "H,4096", "H,1", "Q", "B,1", "Q", "H,2")
    return session.bytes(ended=i % 2 == 0)


KINDS = [
    (example, 3), (bare, len(BARE)), (burn, 420), (cooling, 60), (figure, 2 * len(EDGE_CASES)), (causes, 36), (awaited, 70), (again, 50),
    (form, 3 * -(-len(BAD) // 3)), (changes, 200), (noise, 60), (order, 120), (wide, 70), (long, len(LENGTHS)), (longest, 16),
    (ends, 4 * len(END_LINES)), (stops, 100), (top, 40), (backs, 80), (limit, 110), (last, 110), (degree, 60), (bends, 32), (rows, 24),
    (shift, 100), (kept, 60), (opened, 42), (full, 6),
]


def sessions():
    for kind, count in KINDS:
        rng = random.Random(f"{SEED} {kind.__name__}")
        for i in range(count):
            yield kind.__name__, kind(rng, i)


def main():
    whole_file, count, lines = [], 0, 0
    for kind, data in sessions():
        answers = text.answers(data)
        whole_file.append(f"{len(data)} {len(answers)} {kind}\n".encode("ascii") + data + answers)
        count += 1
        lines += len(text.lines_of(data))
    FILE.parent.mkdir(parents=True, exist_ok=True)
    FILE.write_bytes(b"".join(whole_file))
    print(f"{count} sessions of {lines} lines")
    print(f"{count} agreed")


if __name__ == "__main__":
    main()
