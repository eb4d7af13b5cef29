"""Texts that are changed at random, for tools/fuzz."""
import re

DESCRIPTION = re.compile(r"--[^\n]*|\d+[ub]\d+|-?\d+s\d+|\d+|[A-Za-z]\w*|/\\|->|\s+|.", re.S)
VERILOG = re.compile(r"//[^\n]*|/\*.*?\*/|\d+'h[0-9a-fA-F]+|\d+|\$?[A-Za-z_]\w*|<=|==|>>>|<<|>>|\s+|.", re.S)
STIMULUS = re.compile(r"\d+\*|\w+!?|\s|.", re.S)
NUMBERS = (0, 1, 2, 3, 7, 8, 9, 16, 31, 32, 33, 64, 127, 128, 129, 200, 255, 256, 1023, 1024, 1025, 2000, 4095, 4096, 4097, 65_536)
NUMBERS += (2**31, 2**32 - 1, 2**32, 2**64, 2**128 - 1, 2**128)
BYTES = b"\x00\xff\x1b\x80\xc3\x0b\x0c\r\n\t (){}[];:=|,.\\/@-+*_'#\"0159azAZ"
# Primitives on words that have one type.
ALIKE = ("add sub mul and or xor", "shl shr", "eq lt", "redAnd redOr redXor")
KINDS = (
    ("literal", r"-?\d+[ubs]\d+"),
    ("word", r"\d+'h\w+"),
    ("number", r"\d+"),
    ("upper", r"[A-Z]\w*"),
    ("lower", r"\$?[a-z_]\w*"),
    ("space", r"\s+|--.*|//.*"),
)
FEW_TIMES = (1, 1, 1, 2, 2, 3, 5)


def by_kind(token):
    """Returns what sort of token this is, so that another of the sort may stand for it."""
    return next((kind for kind, form in KINDS if re.fullmatch(form, token, re.S)), "sign")


class Texts:
    """The tokens of all texts of one language, by their kinds."""

    def __init__(self, form, texts):
        self.form, self.texts, self.of_kind = form, texts, {}
        for text in texts:
            for token in form.findall(text):
                self.of_kind.setdefault(by_kind(token), []).append(token)

    def token(self, random, kind=None):
        kinds = [it for it in self.of_kind if it != "space"]
        return random.choice(self.of_kind[kind if kind in self.of_kind else random.choice(kinds)])

    def with_other_tokens(self, random, text):
        """Returns the text with a few tokens left out, repeated, moved, or replaced."""
        tokens = self.form.findall(text)
        for _ in range(random.choice(FEW_TIMES)):
            places = [it for it, token in enumerate(tokens) if not token.isspace()] or [0]
            at, other = random.choice(places), random.choice(places)
            first, last = sorted((at, other))
            last = min(last, first + random.choice((1, 5, 30)))
            token = tokens[at] if tokens else ""
            change = random.randrange(9)
            if change == 0:
                tokens[at : at + 1] = []
            elif change == 1:
                tokens.insert(other, " " + token + " ")
            elif change == 2 and tokens:
                tokens[at], tokens[other] = tokens[other], tokens[at]
            elif change == 3:
                tokens.insert(at, " " + self.token(random) + " ")
            elif change == 4:
                tokens[first:last] = []
            elif change == 5:
                tokens[first:first] = [*tokens[first:last], " "]
            elif change == 6:
                tokens[at : at + 1] = [str(random.choice(NUMBERS))]
            else:
                tokens[at : at + 1] = [self.token(random, by_kind(token))]
        return "".join(tokens)

    def with_other_bytes(self, random, text):
        """Returns the bytes of the text with a few of them left out, repeated, or replaced; or a part of it; or it with a part of another."""
        text = bytearray(text.encode())
        for _ in range(random.choice(FEW_TIMES)):
            at, length = random.randrange(len(text) + 1), random.choice((1, 1, 1, 4, 40, 400))
            change = random.randrange(6)
            if change == 0:
                text[at : at + length] = b""
            elif change == 1:
                text[at:at] = text[at : at + length] * random.choice((1, 1, 2, 50))
            elif change == 2:
                text[at : at + 1] = bytes([random.choice(BYTES)])
            elif change == 3:
                text[at:at] = bytes([random.choice(BYTES)]) * random.choice((1, 1, 1, 30, 300))
            elif change == 4:
                del text[at:]
            else:
                other = random.choice(self.texts).encode()
                text[at:] = other[random.randrange(len(other) + 1) :]
        return bytes(text)


def with_other_width(random, text):
    """Returns a description in which a number of its types is another one wherever it stands."""
    bare = re.sub(r"--[^\n]*", "", text)
    numbers = sorted(set(re.findall(r"(?<=[ @(])\d+(?=[ )])|(?<=\d[ubs])\d+", bare)))
    if not numbers:
        return text
    old, new = random.choice(numbers), str(random.choice((*range(1, 20), 32, 64, 127, 128, 129)))
    return re.sub(rf"(?<=[ @(]){old}(?=[ )])|(?<=\d[ubs]){old}\b", new, text)


def with_other_values(random, text):
    """Returns a description with other values of a few literals."""
    some = random.choice((2, 2, 5))

    def other(it):
        value, sign, width = it.groups()
        width = int(width)
        if random.randrange(some) or width > 128:
            return it.group(0)
        new = random.choice((0, 1, (1 << width) - 1, random.getrandbits(width) if width else 0))
        if sign == "s":
            new = new - (1 << width) if width and new >> (width - 1) else new
        return f"{new}{sign}{width}"

    return re.sub(r"(-?\d+)([ubs])(\d+)\b", other, text)


def with_other_primitives(random, text):
    """Returns a description with other primitives of the same types."""
    some = random.choice((2, 2, 5))

    def other(it):
        group = next((names.split() for names in ALIKE if it.group(1) in names.split()), None)
        if random.randrange(some) or not group:
            return it.group(0)
        # Words of type BitVector aren't added, and aren't less than one another.
        allowed = [name for name in group if it.group(2) != "B" or name not in ("add", "sub", "mul", "lt")]
        return random.choice(allowed) + it.group(2)

    return re.sub(r"\b([a-z]+(?:And|Or|Xor)?)([USB]?)\b(?= @)", other, text)


def with_larger_terms(random, text):
    """Returns a description in which a few literals are results of primitives."""
    some = random.choice((2, 5))

    def other(it):
        literal, sign, width = it.group(0), it.group(1).upper(), it.group(2)
        if random.randrange(some):
            return literal
        name = random.choice(("and", "or", "xor") if sign == "B" else ("add", "sub", "mul", "and", "or", "xor"))
        return f"({name}{sign} @{width} {literal} ({'not'}{sign} @{width} {literal}))"

    return re.sub(r"-?\d+([ubs])(\d+)\b(?!\s*->)", other, text)


TYPED = (with_other_width, with_other_values, with_other_primitives, with_larger_terms)


def with_typed_changes(random, text):
    """Returns a description with a few changes after which it is typed mostly."""
    for _ in range(random.choice(FEW_TIMES)):
        text = random.choice(TYPED)(random, text)
    return text
