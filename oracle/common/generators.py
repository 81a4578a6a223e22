"""Cases for the oracle and for our side, inside the comparison domain of each part (see README.md).

First the fixed cases (short ones exhaustively, boundary lengths), then random and damaged ones.
"""

import itertools
import random
import re
import string
import struct

LIMIT = 65_536          # the longest case: `replay` takes no longer ones


def symbols(text):
    return [c.encode() for c in text]


NASTY = symbols(';:=",A \t\r\n\\.')
ASCII = [bytes([c]) for c in range(128)]
UTF8 = symbols("é☃\u0085\u00a0\u2028\ufeff²😀")
WIDE = symbols("éŁ☃李😀\U00010000\ufeff")     # of two, three and four bytes, none of them white space
KEY_BYTES = (string.ascii_letters + string.digits + ".,/_-").encode()
WORDS = [b"BEGIN", b"END", b"begin", b"eNd", b"BEGI", b"N", b":", b";", b"=", b" ", b"\n", b"\r",
         b"A", b".", b",", b"/", b"_", b"-", b"9", b"\x7f", b"@", b"[", b"`", b"{"]


def exhaustive(alphabet, most, before=b"", after=b""):
    """Every string of at most so many symbols, between `before` and `after`."""
    for n in range(most + 1):
        for t in itertools.product(alphabet, repeat=n):
            yield before + b"".join(t) + after


def word(rng, alphabet, least, most):
    return b"".join(rng.choices(alphabet, k=rng.randint(least, most)))


def damaged(rng, data, alphabet):
    """A few symbols of valid UTF-8 replaced, dropped, put in, doubled or swapped."""
    s = symbols(data.decode())
    for _ in range(rng.choice((1, 1, 2, 4))):
        i = rng.randrange(len(s) + 1)
        how = rng.randrange(5)
        if how == 0:
            s[i:i + 1] = [rng.choice(alphabet)]
        elif how == 1:
            del s[i:i + rng.choice((1, 1, 3))]
        elif how == 2:
            s.insert(i, rng.choice(alphabet))
        elif how == 3:
            s[i:i] = s[max(0, i - rng.randint(1, 6)):i]
        else:
            s[i:i + 2] = s[i:i + 2][::-1]
    return b"".join(s)


# ---------------------------------------------------------------- unfolding: valid UTF-8

def unfold_fixed():
    yield from exhaustive(symbols("A\r\n \t"), 7)
    for piece in (b"A", b"\n ", b"\r\n\t", b"\r\r\n ", b"ab\r\n c", b"\n", " é\n".encode()):
        yield (piece * LIMIT)[:LIMIT - len(piece)] + piece


def unfold_random(rng):
    while True:
        yield word(rng, symbols("\r\n \tA\x00\x0b") + UTF8 + [b"\r\n ", b"\n\t"], 0, 60)
        yield damaged(rng, rng.choice((b"BEGIN:A\r\nK:long\r\n er\r\n\t text\r\n \r\nEND:A\r\n", b"a\n b\n\n  c\n\td\n")), symbols("A\r\n \t"))


# ---------------------------------------------------------------- keys: ASCII

def key_fixed():
    yield from exhaustive(ASCII, 2)
    yield from exhaustive(WORDS, 3)
    for start in (b"BEGIN", b"END", b"begin", b"End", b"A"):
        for byte in ASCII:
            yield start + byte
            yield start + byte + b"A"
    for n in (LIMIT - 1, LIMIT):
        yield b"K" * n
        yield (b"BEGIN" + b"K" * n)[:n - 1] + b":"


def key_random(rng):
    while True:
        yield word(rng, ASCII + WORDS * 4, 0, 30)
        yield damaged(rng, rng.choice((b"BEGIN:A", b"END;x", b"SUMMARY;A=b:c", b"BEGINNING", b"a.b/c,d_e-f:1")), ASCII)


# ---------------------------------------------------------------- parameters: ASCII

def param_fixed():
    yield from exhaustive(NASTY, 3)
    yield from exhaustive(NASTY, 4, b";")
    yield from exhaustive(NASTY, 4, b";K=")
    yield from exhaustive(symbols('",a:'), 7, b";K=")
    for byte in ASCII:
        for form in (b";%s", b";K%s", b";K=%s", b';K="%s"', b';K="a"%s', b';K="a","b"%s', b"; %sK=v", b";K=v%s"):
            yield form % byte
            yield form % byte + b":x"
    for n in (LIMIT - 1, LIMIT):
        for form in (b";%s", b";K=%s", b';K="%s"', b';K="a","%s"', b"; %s"):
            yield form % (b"v" * (n - len(form) + 2))
    yield b";K=" + b",".join([b'"a"'] * (LIMIT // 4 - 1)) + b":"
    yield b";A;B=;C=d" * (LIMIT // 9)


def param_random(rng):
    sound = [b';CN="A:B";RSVP:x', b';A="x;y:z";B=;C;;=q:v', b';A="a","b","c";D=e', b';K="",x;L=y:', b"; \tA=b c;D"]
    while True:
        yield word(rng, NASTY + [b'"', b'"', b'","', b";K=", b'="', b"b"], 6, 60)
        yield b";" + word(rng, ASCII + symbols(';=",') * 12, 1, 60)
        yield damaged(rng, rng.choice(sound), NASTY)


# ---------------------------------------------------------------- fold: ASCII without LF

BLANKS = symbols(" \t\r\x0b\x0c\x1c\x1f")


def fold_fixed():
    for n in range(400):
        for byte in symbols("A \t\r"):
            yield byte * n
    for n in (76, 77, 149, 150, 151, 152, 223, 224, 225, 226, 299):
        for at in range(60, n):
            for byte in BLANKS:
                yield b"A" * at + byte + b"A" * (n - at - 1)
    for byte in ASCII:
        if byte != b"\n":
            for tail in (0, 1, 2, 72, 73, 74, 75, 76, 77, 147, 148, 149, 150):
                yield b"A" * 75 + byte + b"B" * tail
                yield b"A" * 74 + byte * 2 + b"B" * tail
    for n in (4096, LIMIT - 1, LIMIT):
        yield (b"abc def " * n)[:n]


def fold_random(rng):
    while True:
        yield word(rng, symbols("Abcd\x00\x7f") + BLANKS, 0, 400)
        yield damaged(rng, word(rng, symbols("abcdef  "), 70, 320), [b for b in ASCII if b != b"\n"])


# ---------------------------------------------------------------- the strict fold: UTF-8 without white space

def rests(line):
    """How many bytes are left behind each cut, where a cut goes before a character."""
    width = 75
    while len(line) > width:
        cut = max(at for at in range(width + 1) if line[at] & 0xC0 != 0x80)
        line, width = line[cut:], 74
        yield len(line)


def in_foldstrict_domain(line):
    """The Rust looks for white space by characters; and a rest of 75 bytes is one line to it, of 76 octets."""
    return not re.search(r"\s", line.decode()) and 75 not in rests(line)


def foldstrict_lines():
    for n in range(400):
        for c in [b"A", *WIDE]:
            yield c * n
    for first in (75, 149, 223):                    # each character at each place around a cut
        for at in range(first - 6, first + 4):
            for c in WIDE:
                for tail in (0, 1, 2, 3, 70, 71, 72, 73, 74, 75, 76, 77, 150):
                    yield b"A" * at + c + b"B" * tail
                    yield b"A" * at + c * 3 + b"B" * tail
    yield from exhaustive([b"A", *WIDE[:1], *WIDE[3:5]], 5, b"A" * 71, b"B" * 76)
    for n in (4096, LIMIT - 4, LIMIT):
        for c in (b"A", "aé".encode(), "李".encode(), "é李😀".encode()):
            yield c * (n // len(c))


def foldstrict_fixed():
    return filter(in_foldstrict_domain, foldstrict_lines())


def foldstrict_random(rng):
    while True:
        some = [word(rng, symbols("Abcd\x00\x7f") + WIDE * rng.choice((1, 3)), 0, 400),
                damaged(rng, word(rng, symbols("abcdef") + WIDE[:4], 70, 200), WIDE)]
        yield from filter(in_foldstrict_domain, some)


# ---------------------------------------------------------------- quoting: valid UTF-8

def quote_fixed():
    yield from exhaustive(NASTY, 4)
    for byte in ASCII:
        for form in (b"%s", b"a%sb", b'"%s"', b'"%s', b'%s"'):
            yield form % byte
    for n in (LIMIT - 1, LIMIT):
        for form in (b"%s", b"%s:", b'"%s,"', b",%s"):
            yield form % (b"q" * (n - len(form) + 2))


def quote_random(rng):
    while True:
        yield word(rng, NASTY + UTF8 + [b'"', b":"], 0, 20)
        yield damaged(rng, rng.choice((b'"mailto:a@b","mailto:c@d"', b"a:b", b"plain text", b'"x"')), NASTY + UTF8)


# ---------------------------------------------------------------- trees, for reading and writing
# A tree: (name, [(key, [parameter], value)], [child]). A parameter: (key, value or None, its text).

def fit_key(k, may_be_empty=False):
    k = bytes(c for c in k if c in KEY_BYTES)
    return k + b"-" if k.lower() in (b"begin", b"end") else k if k or may_be_empty else b"K"


def fit_value(v):
    """Not empty, no CR, LF or backslash, no blank in front."""
    return re.sub(rb"[\r\n\\]", b"", v).lstrip(b" \t") or b"v"


def fit_bare(v):
    """A value without quotes around it: not empty, no CR, LF, `;` or `:`. A quote in front is
    closed at once: otherwise a quoted value would stand there, or an unclosed one."""
    v = re.sub(rb"[\r\n;:]", b"", v) or b"b"
    return b'"' + v if v[:1] == b'"' and v[1:2] != b'"' else v


def fit_inside(v):
    """The inside of a quoted value: not empty, no CR, LF or quote."""
    return re.sub(rb'[\r\n"]', b"", v) or b"i"


NAMES = [b"A", b"AB", b"B", b"BEGIN", b"end", b"X-1.2", b"VEVENT", b",", b"/_"]
KEYS = [b"K", b"BEGINNING", b"ENDING", b"END-X", b"a.b/c,d_e-f", b"9", b"-", b"SUMMARY", b"CATEGORIES", b"UID", b"END."]
LOOSE = symbols('aB:;,"= \t.\x00\x0b\x0c\x7f') + UTF8 + [b"BEGIN:A", b"END:A", b'","', b";K=", b"\\"]
SOUND = [b"20261027T120000Z", b"mailto:x@ex.org", b"one, two; three", "Zoë ☃".encode(), b'"a","b"', b"-//EN"]


def any_text(rng, alphabet):
    return damaged(rng, rng.choice(SOUND), alphabet) if rng.random() < .4 else word(rng, alphabet, 0, rng.choice((2, 6, 30, 120)))


def any_key(rng, may_be_empty=False):
    r = rng.random()
    if r < .6:
        return rng.choice(KEYS)
    return b"" if r < .7 and may_be_empty else fit_key(word(rng, symbols("abcXYZ019.,/_-") + [b"BEGIN", b"END"], 1, 8), may_be_empty)


def any_param(rng):
    """A parameter that stays whole before `;` or `:`."""
    front, k, how = b";" + word(rng, symbols(" \t"), 0, rng.choice((0, 0, 2))), any_key(rng, True), rng.randrange(6)
    inside = [fit_inside(any_text(rng, LOOSE)) for _ in range(rng.randint(2, 4))]
    if how == 0:
        return k, None, front + k
    if how == 1:
        return k, None, front + k + b"="
    if how == 2:
        return k, inside[0], front + k + b'="' + inside[0] + b'"'
    if how == 3:
        v = b",".join(b'"' + i + b'"' for i in inside)
    elif how == 4:
        v = b'""' + re.sub(rb"[\r\n;:]", b"", any_text(rng, LOOSE))
    else:
        v = fit_bare(any_text(rng, LOOSE))
    return k, v, front + k + b"=" + v


def any_tree(rng, left, prop, name):
    return (name(rng), [prop(rng) for _ in range(rng.choice((0, 1, 1, 2, 4)))],
            [any_tree(rng, left - 1, prop, name) for _ in range(rng.choice((0, 0, 0, 1, 2)) if left > 1 else 0)])


# ---------------------------------------------------------------- reading: feeds in the domain
# The random ones by construction; the others are used where the test below finds them inside.

def any_case(rng, word_):
    return bytes(rng.choice((c, c ^ 32)) if 65 <= c <= 90 and rng.random() < .2 else c for c in word_)


def any_prop(rng):
    return any_key(rng), [any_param(rng) for _ in range(rng.choice((0, 0, 1, 1, 2, 3)))], fit_value(any_text(rng, LOOSE))


def any_name(rng):
    return rng.choice(NAMES) if rng.random() < .7 else word(rng, symbols("abcXYZ019.,/_-"), 1, 12)


def content(k, params, value):
    return k + b"".join(p[2] for p in params) + b":" + value


def tree_lines(tree, rng):
    """Properties and children mixed, each in its order."""
    name, props, children = tree
    waiting = [[content(*p)] for p in props]
    for c in children:
        waiting.insert(rng.randint(0, len(waiting)), list(tree_lines(c, rng)))
    yield any_case(rng, b"BEGIN:") + name
    for some in waiting:
        yield from some
    yield any_case(rng, b"END:") + name


def feed(lines, br=b"\r\n", last=True):
    return br.join(lines) + (br if last else b"")


def folded(rng, text, br, often):
    """Folds put in anywhere, line starts and ends too, but not inside a CRLF or a character."""
    if not often:
        return text
    out = bytearray()
    for c in re.findall(r"\r\n|[\s\S]", text.decode()):
        if rng.random() < often:
            out += br + rng.choice((b" ", b"\t"))
        out += c.encode()
    return bytes(out)


def any_feed(rng, prop=any_prop, name=any_name):
    br, lines = rng.choice((b"\n", b"\r\n")), []
    for line in tree_lines(any_tree(rng, 5, prop, name), rng):
        lines += [b""] * rng.choice((0, 0, 0, 0, 0, 1, 2)) + [line]
    text = feed(lines + [b""] * rng.choice((0, 0, 1, 3)), br, rng.random() < .8)
    return folded(rng, text, br, rng.choice((0, 0, .02, .2)))


LINE = re.compile(rb"""
    (?! (?i: BEGIN | END ) [:;] )                           # nothing reserved
    [A-Za-z0-9.,/_-]+                                       # key
    (?: ; [ \t]* [A-Za-z0-9.,/_-]*                          # parameters, each with
        (?: = (?: "[^"]+" (?: ,"[^"]+" )*                   #   quoted values,
                | (?: "" | [^";:] ) [^;:]* )?               #   a bare one that leaves no quote open,
        )? )*                                               #   or none
    : [^ \t\\] [^\\]*                                      # value""", re.VERBOSE)


def in_read_domain(text):
    """The domain of `read` as the README states it, of a feed in valid UTF-8."""
    br = b"\r\n" if b"\r" in text else b"\n"
    if re.search(rb"[\r\n]", text.replace(br, b"")):
        return False
    names, tops = [], 0
    for line in filter(None, re.sub(br + rb"[ \t]", b"", text).split(br)):
        if line[:6].upper() == b"BEGIN:":
            tops += not names
            names.append(line[6:])
            if len(names) > 64 or not line[6:] or line[6:].strip(KEY_BYTES):
                return False
        elif not names:
            return False
        elif line[:4].upper() == b"END:":
            if names.pop() != line[4:]:
                return False
        elif not LINE.fullmatch(line):
            return False
    return tops == 1 and not names


FORMS = [b";", b";P", b";P=", b";=", b"; P=q", b";\tP", b';P="q"', b';P="q;r:s"', b';P="q","r"', b';P=""', b';P=""q"', b';P=q"r', b";=q"]
KINDS = [b"", b"K:v", b"BEGIN:A\nEND:A", b"BEGINNING:BEGIN:A", b"ENDING;A=END:END:A", b'K;P=q:"', b"X:END:A"]


def both_breaks(lines):
    yield feed(lines, b"\n")
    yield feed(lines, b"\r\n")


def inside_a(*lines):
    """Feeds of one component with these lines; an item may hold several, LF between them."""
    return both_breaks(b"\n".join((b"BEGIN:A", *lines, b"END:A")).split(b"\n"))


def cases_of_letters(word_):
    return map("".join, itertools.product(*((c, c.lower()) for c in word_)))


def nests(n):
    """All forests of n components, as lists of lines; a name may start another."""
    if n == 0:
        yield []
    for inside in range(n):
        for a in nests(inside):
            for b in nests(n - 1 - inside):
                name = b"AB"[:1 + n % 2]
                yield [b"BEGIN:" + name, *a, b"END:" + name, *b]


def folds_everywhere(br, fold):
    """A feed with the fold put in at each place in turn."""
    lines = [b"BEGIN:AB", b'K;P="q:r";S:v w', b"", b"BEGIN:C", "L:é☃".encode(), b"END:C", b"END:AB", b""]
    pieces = [p.encode() for p in re.findall(r"\r\n|[\s\S]", feed(lines, br).decode())]
    for at in range(len(pieces) + 1):
        yield b"".join(pieces[:at] + [fold] + pieces[at:])


def read_lines():
    """One or a few lines of every kind, exhaustively."""
    for v in exhaustive(symbols('A:;," =\t.'), 4):
        yield from inside_a(b"K:" + v)
    for v in exhaustive(symbols('A:;," =\\.'), 4):
        yield from inside_a(b"K;P=" + v + b":v")
        yield from inside_a(b"K;P=" + v + b";Q:v")
    for v in exhaustive(symbols('A:;,"= \\'), 3):
        yield from inside_a(b'K;P="' + v + b'":v')
        yield from inside_a(b'K;P="' + v + b'","' + v + b'";Q=r:v')
    for k in exhaustive(symbols("A.,/_-9") + [b"BEGIN", b"END", b"end"], 3):
        yield from inside_a(k + b":v", k + b";" + k + b"=x:v")
    for p in exhaustive(FORMS, 3):
        yield from inside_a(b"K" + p + b":v")
    for lines in itertools.product(KINDS, repeat=4):
        yield from inside_a(*lines)


def read_nests():
    for b, e in itertools.product(cases_of_letters("BEGIN"), cases_of_letters("END")):
        yield feed([b.encode() + b":A", b"K:v", e.encode() + b":A"], b"\n")
    for n in range(7):
        for lines in nests(n):
            yield from inside_a(*lines)
    for d in range(1, 65):
        yield feed([b"BEGIN:X"] * d + [b"END:X"] * d, b"\n", d % 2 == 0)


def read_limits():
    for n in (LIMIT - 1, LIMIT):
        yield feed([b"BEGIN:X", b"K:" + b"v" * (n - 20), b"END:X"])
        yield feed([b"BEGIN:X", b"K;P=" + b"v" * (n - 24) + b":v", b"END:X"])
        body = b"".join(b"\r\n " + b"v" * 74 for _ in range((n - 22) // 77))
        yield feed([b"BEGIN:X", b"K:v" + body + b"w" * (n - 21 - len(body)), b"END:X"])
    yield feed([b"BEGIN:X"] + [b"K%d;P=%d;Q:v" % (i, i) for i in range(3000)] + [b"END:X"])
    yield feed([b"BEGIN:X"] + [b"BEGIN:Y", b"END:Y"] * 4000 + [b"END:X"])


def read_fixed():
    folds = (folds_everywhere(br, (br + blank) * times)
             for br in (b"\n", b"\r\n") for blank in (b" ", b"\t") for times in (1, 2))
    return filter(in_read_domain, itertools.chain(read_lines(), read_nests(), *folds, read_limits()))


def read_random(rng):
    while True:
        sound = any_feed(rng)
        yield sound
        hurt = damaged(rng, sound, LOOSE + symbols("AK9-\r\n"))
        if in_read_domain(hurt):
            yield hurt


# ---------------------------------------------------------------- writing: tables and a text
# A case: the numbers of words of the three tables, their words, the text. Trees are laid out plainly, or by dice.

NO_PARENT = 0xFFFFFFFF


class Layout:
    """Rows and text of trees. With dice, parts of the text are shared, properties of a component stand among its children,
    and behind the last row some words are left over, too few for a row."""

    def __init__(self, tops, rng=None):
        self.rng, self.text, self.components, self.owned = rng, bytearray(), [], []
        for tree in tops:
            self.add(tree, NO_PARENT, 1)

    def view(self, part):
        """Start and length of a part: behind the rest of the text or, by dice, where it stands already."""
        at = -1
        if self.rng and self.rng.random() < .5:
            at = self.text.find(part, len(cut_to(self.text, self.rng.randint(0, len(self.text)))))
        if at < 0:
            at = len(self.text)
            self.text += part
        return [at, len(part)]

    def add(self, tree, parent, depth):
        name, props, children = tree
        row, waiting = len(self.components), list(props)
        self.components.append([parent, depth, *self.view(name)])
        for child in children:
            waiting.insert(self.rng.randint(0, len(waiting)) if self.rng else len(waiting), child)
        for item in waiting:
            if isinstance(item[2], bytes):          # a property ends with its value, a tree with its children
                self.owned.append((row, item))
            else:
                self.add(item, row, depth + 1)

    def mix(self):
        """Properties in any order, those of one component in theirs."""
        waiting = {row: [p for r, p in self.owned if r == row] for row, _ in self.owned}
        rows = [row for row, _ in self.owned]
        self.rng.shuffle(rows)
        self.owned = [(row, waiting[row].pop(0)) for row in rows]

    def tables(self):
        properties, parameters = [], []
        for number, (row, (key, params, value)) in enumerate(self.owned):
            properties.append([row, *self.view(key), *self.view(value)])
            for k, v, _ in params:
                parameters.append([number, *self.view(k), *([0, 0, 0] if v is None else [1, *self.view(v)])])
        return [self.words(size, rows) for size, rows in ((4, self.components), (5, properties), (6, parameters))]

    def words(self, size, rows):
        spare = self.rng.randrange(size) if self.rng else 0
        return sum(rows, []) + [self.rng.getrandbits(32) for _ in range(spare)]

    def case(self):
        tables = self.tables()
        words = [len(t) for t in tables] + sum(tables, [])
        return struct.pack(f"<{len(words)}I", *words) + bytes(self.text)


def unbroken(v):
    return re.sub(rb"[\r\n]", b"", v)


def cut_to(v, n):
    """At most n bytes of valid UTF-8, no character cut."""
    return v[:n].decode(errors="ignore").encode()


def plain_value(rng):
    """A parameter value that needs no quotes."""
    return cut_to(re.sub(rb'[:;,"]', b"", unbroken(any_text(rng, LOOSE))), 20) or b"b"


def write_param(rng):
    k = any_key(rng, True)
    if rng.random() < .2:
        return k, None, b";" + k
    v = plain_value(rng)
    return k, v, b";" + k + b"=" + v


def write_prop(rng):
    while True:
        p = any_key(rng), [write_param(rng) for _ in range(rng.choice((0, 0, 1, 2)))], unbroken(any_text(rng, LOOSE))
        room = 75 - len(content(*p[:2], b""))
        if room >= 0:
            return p[0], p[1], cut_to(p[2], room)


def write_name(rng):
    n = any_name(rng)
    return n if n.lower() != b"calendar" else b"C"


def write_fixed():
    def one(k, params, v):
        return Layout([(b"A", [(k, params, v)], [])]).case()

    for v in exhaustive(symbols(';:=",A \t\\.'), 4):
        yield one(b"K", [], v)
    for v in exhaustive(symbols("=A \t\\.'"), 4):
        if v:
            yield one(b"K", [(b"P", v, b"")], b"v")
    for v in exhaustive([b"A", b" ", *WIDE], 3):
        yield one(b"K", [(b"P", v + b"q", b"")], v)
    for c in WIDE:                         # lines of 75 bytes that end with a character
        yield one(b"K", [], b"v" * (73 - len(c)) + c)
    for n in range(60, 74):                # lines of 62 to 75 bytes
        for c in symbols("v :\t"):
            yield one(b"K", [], c * n)
            yield one(b"K", [(b"P", b"q", b""), (b"", None, b"")], c * (n - 5))
            yield one(b"K", [(b"", b"q" * (n - 2), b"")], b"")
            yield one(b"K" * n, [], b"")
    for n in range(50, 70):                # BEGIN lines of 56 to 75 bytes
        yield Layout([(b"N" * n, [], [])]).case()
    yield from write_nests()


def write_nests():
    """Every forest of up to six components, 64 levels, and many rows."""
    for n in range(1, 7):
        for tops in forests(n):
            yield Layout(tops).case()
            for seed in range(8):
                laid = Layout(tops, random.Random(seed))
                yield laid.case()
                laid.mix()
                yield laid.case()
    tree = (b"X", [(b"K", [], b"v")], [])
    for _ in range(63):
        tree = (b"X", [(b"K", [], b"v"), (b"L", [], b"w")], [tree])
    many = [(b"B", [(b"L%d" % i, [(b"P", b"%d" % i, b"")], b"w")], []) for i in range(600)]
    for tops in ([tree], [(b"A", [(b"K%d" % i, [], b"v") for i in range(600)], many)], many):
        yield Layout(tops).case()
        laid = Layout(tops, random.Random(1))
        yield laid.case()
        laid.mix()
        yield laid.case()


def forests(n):
    """All forests of n components, each with two properties."""
    if n == 0:
        yield []
    for inside in range(n):
        for a in forests(inside):
            for b in forests(n - 1 - inside):
                yield [(b"N%d" % n, [(b"K%d" % n, [(b"P", b"%d" % inside, b"")], b"v"), (b"L", [], b"")], a), *b]


def write_random(rng):
    while True:
        tops = [any_tree(rng, 5, write_prop, write_name) for _ in range(rng.choice((1, 1, 1, 2, 3)))]
        yield Layout(tops).case()
        laid = Layout(tops, rng)
        yield laid.case()
        laid.mix()
        yield laid.case()


# ---------------------------------------------------------------- reading and then writing: feeds in both domains

def readwrite_param(rng):
    k, v, _ = write_param(rng)
    front = b";" + word(rng, symbols(" \t"), 0, rng.choice((0, 0, 2))) + k
    if v is None:
        return k, v, front + rng.choice((b"", b"="))
    return k, v, front + rng.choice((b"=%s", b'="%s"')) % v


def written_line(k, params, v):
    return k + b"".join(b";" + pk + (b"" if pv is None else b"=" + pv) for pk, pv, _ in params) + b":" + v


def readwrite_prop(rng):
    while True:
        k, params = any_key(rng), [readwrite_param(rng) for _ in range(rng.choice((0, 0, 1, 2)))]
        room = 75 - len(written_line(k, params, b""))
        if room > 0:
            return k, params, cut_to(fit_value(unbroken(any_text(rng, LOOSE))), room) or b"v"


def readwrite_fixed():
    for v in exhaustive(symbols('A:;," =\t.'), 4):
        if v == fit_value(v):
            yield from inside_a(b"K:" + v)
    for v in exhaustive(symbols("=A \t.'"), 4):
        for form in (b"K;P=%s:v", b'K;P="%s":v', b"K; P=%s;Q:v") if v else (b"K;P:v", b"K;P=:v", b"K;;=:v"):
            yield from inside_a(form % v if v else form)
    for n in range(7):
        for lines in nests(n):
            yield from inside_a(b"K:v", *lines, b"L:w")
    for n in range(60, 74):
        yield from inside_a(b"K:" + b"v" * n, b"B;P=q;Q:" + b"w" * (n - 6))


def readwrite_random(rng):
    while True:
        yield any_feed(rng, readwrite_prop, write_name)


# ---------------------------------------------------------------- escaped text: valid UTF-8, and when read, escapes that the mode knows

STRICT = [b"\\\\", b"\\;", b"\\,", b"\\n", b"\\N"]
ESCAPES = STRICT + [b"\\:"]
SIGNS = symbols(';,:nN\n\r"aé')
FIT = re.compile(rb"(?:[^\\]|\\[\\;,nN:])*", re.DOTALL)
STRICTLY_FIT = re.compile(rb"(?:[^\\]|\\[\\;,nN])*", re.DOTALL)
TEXTS = [b"Meeting, room 4; bring:\n- the \\ sign\r\n", "Zoë's café, Żółw;\n".encode(), b"20261027T120000Z", b"mailto:x@ex.org", b",;\\\n:\"nN"]
VALUES = [b"Meeting\\, room 4\\; bring:\\n- the \\\\ sign", "Zoë's café\\, Żółw\\;\\N".encode(), b"plain, but not escaped; text", b"\\\\n\\\\\\n\\n\\\\N"]


def at_blocks(pieces):
    """Each piece at, before and behind the edges of blocks of plain text; the text alone; and nothing but the piece."""
    for n in sorted({block + by for block in (8, 16, 32, 64, 128, 256) for by in (-1, 0, 1)}):
        yield b"a" * n
        yield "é".encode() * n
        for piece in pieces:
            for at in (0, 1, n // 2, n - 1, n):
                yield b"a" * at + piece + b"a" * (n - at)
            yield (b"a" * n + piece) * 3
            yield piece * n


def at_limit(pieces):
    for piece in pieces:
        for n in (LIMIT - 1, LIMIT):
            yield b"a" * (n % len(piece)) + piece * (n // len(piece))
        yield piece + b"a" * (LIMIT - len(piece))
        yield b"a" * (LIMIT - len(piece)) + piece


def escape_fixed():
    yield from exhaustive(symbols("\\") + SIGNS, 5)
    for byte in ASCII + UTF8:
        yield byte
        yield b"a" + byte + b"b"
    yield from at_blocks(symbols("\\;,\n\r:"))
    yield from at_limit([b"a", b",", b"\\", b"\n", b";a", b"a,b;c\\d\ne"])


def escape_random(rng):
    while True:
        yield word(rng, symbols("\\;,") + SIGNS + UTF8, 0, 40)
        yield word(rng, symbols("abcdefgh :") * 6 + symbols("\\;,\n") + UTF8, 0, 600)
        yield damaged(rng, rng.choice(TEXTS), symbols("\\;,\n\r:nN") + UTF8)


def read_text_fixed(escapes):
    yield from exhaustive(escapes + SIGNS, 4)
    for byte in ASCII + UTF8:
        if byte != b"\\":
            yield byte
            yield b"\\n" + byte + b"\\\\"
    yield from at_blocks(escapes)
    yield from at_limit([b"a", *escapes, b"a\\,", b"a\\,b\\;c\\\\d\\ne"])


def read_text_random(rng, escapes, fit):
    while True:
        yield word(rng, escapes + SIGNS + UTF8, 0, 40)
        yield word(rng, symbols("abcdefgh :") * 6 + escapes + UTF8, 0, 600)
        hurt = damaged(rng, rng.choice(VALUES), symbols("\\\\\\;,:nN\r\n") + UTF8)
        if fit.fullmatch(hurt):
            yield hurt


def unescape_fixed():
    return read_text_fixed(ESCAPES)


def unescape_random(rng):
    return read_text_random(rng, ESCAPES, FIT)


def strict_fixed():
    return read_text_fixed(STRICT)


def strict_random(rng):
    return read_text_random(rng, STRICT, STRICTLY_FIT)


PARTS = {"unfold": (unfold_fixed, unfold_random), "key": (key_fixed, key_random), "keyseq": (key_fixed, key_random),
         "param": (param_fixed, param_random), "params": (param_fixed, param_random), "fold": (fold_fixed, fold_random),
         "quote": (quote_fixed, quote_random), "read": (read_fixed, read_random), "write": (write_fixed, write_random),
         "readwrite": (readwrite_fixed, readwrite_random),
         "escape": (escape_fixed, escape_random), "unescape": (unescape_fixed, unescape_random), "strict": (strict_fixed, strict_random),
         "foldstrict": (foldstrict_fixed, foldstrict_random)}


def fixed(part):
    return PARTS[part][0]()


def rand(part, seed):
    """Random and damaged cases without end; the same for the same seed."""
    return PARTS[part][1](random.Random(f"{part} {seed}"))


def cases(part, seed, count):
    """The fixed cases, then so many others."""
    return itertools.chain(fixed(part), itertools.islice(rand(part, seed), count))
