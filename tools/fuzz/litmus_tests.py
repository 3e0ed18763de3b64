"""Random litmus tests of the subset that docs/FORMATS.md names, small enough to look at all their states."""

# How many rows there are, by the number of harts; of 17, which are too many, none is looked at.
ROWS = {1: (0, 1, 3, 5, 8), 2: (0, 2, 3, 3, 4, 4, 4, 5, 5, 6), 3: (1, 2, 2, 3, 3, 4), 4: (1, 2, 2, 2, 3)}
ROWS |= {9: (0,), 16: (0,), 17: (0,)}
NAMES = ("x", "y", "z", "_a1", "rw", "X0", "LOCK_2")
ABI_NAMES = {1: "ra", 2: "sp", 5: "t0", 6: "t1", 7: "t2", 8: "fp", 9: "s1", 10: "a0", 11: "a1", 28: "t3", 31: "t6"}
# The registers for numbers, and for addresses.
REGISTERS, BASES = (5, 5, 7, 7, 10, 31), (6, 8, 9, 30)
NUMBERS = (0, 0, 1, 1, 1, 2, 3, -1, 4, 255, 2**31 - 1, -(2**31))
# The types of numbers, by their bytes, and the numbers that fit in fewer than four.
TYPES = {1: ("int8_t", "uint8_t", "char"), 2: ("int16_t", "uint16_t", "short"), 4: ("int", "unsigned", "int32_t", "uint32_t")}
NARROW = {1: (0, 0, 1, 1, 2, -1, 127, 128, 255, -128), 2: (0, 1, 1, 2, -1, 255, 32767, 32768, 65535, -32768), 4: NUMBERS}
ATOMICS = [f"amo{name}.w" for name in ("swap", "add", "and", "or", "xor", "min", "max", "minu", "maxu")]
SHIFTS = ("slli", "srli", "srai")
IMMEDIATES = ("addi", "ori", "xori", "andi", "slti", "sltiu", *SHIFTS)
THREE_REGISTERS = tuple("xor or and add sub sll slt sltu srl sra mul mulh mulhsu mulhu div divu rem remu".split())
LOADS, STORES = ("lw", "lw", "lw", "lw", "lb", "lbu", "lh", "lhu"), ("sw", "sw", "sw", "sw", "sb", "sh")
BRANCHES = tuple("beq bne blt bge bltu bgeu bgt ble bgtu bleu beqz bnez bltz bgez bgtz blez j".split())
ORDERS = ("", "", "", ".aq", ".rl", ".aqrl", ".aq.rl")
BLANKS = (" ", " ", " ", "  ", "\t", "\n", " \n ", "\r\n", "\f", "(* c *)", " (* a (* b; *) | \n*) ", "(**)")
HEADS = ("", "", '"PodWR Fre"\n', '"a\n(* b" ', "Cycle=Fre PodWR\nOrig=\n", "(* (* *) *)\n", "\r\n \f")
HEADS += ('Key_2=" { \n"s"\n',)


def is_word(letter):
    return letter.isalnum() or letter in "_."


def spaced(r, words):
    """Words with blanks, line ends and comments between them."""
    wild, text = r.random() < 0.3, ""
    for word in words:
        has_to = text and is_word(text[-1]) and is_word(word[0])
        if has_to or r.random() < 0.3:
            text += r.choice(BLANKS) if wild else " "
        text += word
        text += "\n" if word == ";" and r.random() < 0.8 else ""
    return text


def register(r, number):
    return ABI_NAMES[number] if number in ABI_NAMES and r.random() < 0.2 else f"x{number}"


def number(r, chosen):
    """The words of a number."""
    sign, size = ["-"] if chosen < 0 else [], abs(chosen)
    spellings = [f"0x{size:x}", f"0X{size:X}", f"0x{size:08X}", f"00{size}"]
    return [*sign, r.choice(spellings) if r.random() < 0.15 else str(size)]


class Maker:
    """A test while it is made."""

    def __init__(self, r):
        self.r = r
        self.harts = r.choice((1, 2, 2, 2, 2, 3, 3, 4) * 3 + (9, 16, 17))
        self.names = r.sample(NAMES, r.choice((1, 2, 2, 2, 3)))
        # The bytes of each name's numbers, and how many elements an array has; half of the tests have words alone.
        has_types = r.random() < 0.5
        self.sizes = {name: r.choice((1, 2, 4, 4)) if has_types else 4 for name in self.names}
        self.elements = {name: r.choice((None, None, 1, 2, 2, 3, 5)) if has_types else None for name in self.names}
        # The registers that hold an address, by hart, those that hold another number, and those that are written.
        self.bases = [[] for _ in range(self.harts)]
        self.holding = [[] for _ in range(self.harts)]
        self.written = [[] for _ in range(self.harts)]
        self.loops = False

    def index(self, name):
        """An index of an array in brackets, which is rarely outside."""
        r, last = self.r, (self.elements[name] or 1) - 1
        return ["[", *number(r, r.choice((0, 1, last, last) if r.random() < 0.02 else (0, last, last // 2))), "]"]

    def address(self, name=None):
        """An address: of a location, of a byte in it, or of an element."""
        r, name = self.r, name or self.r.choice(self.names)
        if self.elements[name] is not None and r.random() < 0.5:
            return [name, *self.index(name)]
        if r.random() < 0.12:
            bytes_of = self.sizes[name] * (self.elements[name] or 1)
            return [name, "+", *number(r, r.choice((0, 0, bytes_of - 1, bytes_of - self.sizes[name], bytes_of - (r.random() < 0.9))))]
        return [name]

    def value(self, size=4):
        if self.r.random() < (0.2 if size == 4 else 0.005):
            return self.address()
        fits = NARROW[size] if self.r.random() < 0.98 else NUMBERS
        return number(self.r, self.r.choice(fits))

    def location(self):
        """A location or an element that is looked at, and the bytes of its number."""
        name = self.r.choice(self.names)
        if self.elements[name] is not None and self.r.random() < 0.97:
            return [name, *self.index(name)], self.sizes[name]
        return ["[", name, "]"] if self.r.random() < 0.4 else [name], self.sizes[name]

    def declaration(self, name):
        """The entry of a location or an array."""
        r, size, elements = self.r, self.sizes[name], self.elements[name]
        if elements is not None:
            values = [self.value(size) for _ in range(r.choice((elements, elements, elements, 1, elements + (r.random() < 0.05))))]
            listed = [word for value in values for word in [",", *value]][1:]
            filled = ["=", "{", *listed, "}"] if r.random() < 0.6 else []
            return [r.choice(TYPES[size]), name, "[", *number(r, elements), "]", *filled]
        if size == 4 and r.random() < 0.15:
            other = r.choice(self.names)
            kind = self.sizes[other] if r.random() < 0.97 else 4
            return [r.choice(TYPES[kind]), "*", name, *(["=", *self.address(other)] if r.random() < 0.8 else [])]
        plain = [["[", name, "]"], [name]] if size == 4 else []
        entry = r.choice([*plain, [r.choice(TYPES[size]), name], [r.choice(TYPES[size]), name]])
        return entry + (["=", *self.value(size)] if r.random() < 0.6 else [])

    def based(self, hart, base):
        """The entry of a register that holds an address."""
        r, name = self.r, self.r.choice(self.names)
        pointer = [r.choice(TYPES[self.sizes[name] if r.random() < 0.98 else 1]), "*"] if r.random() < 0.2 else []
        return [*pointer, str(hart), ":", register(r, base), "=", *self.address(name)]

    def entries(self):
        """The entries of the braces."""
        r, entries = self.r, []
        for name in self.names:
            entries.append(self.declaration(name))
        for hart in range(self.harts):
            self.bases[hart] = r.sample(BASES, r.choice((1, 2, 2)))
            for base in self.bases[hart]:
                entries.append(self.based(hart, base))
            self.holding[hart] = r.sample((5, 7, 10, 31), r.choice((0, 1, 2, 2)))
            for other in self.holding[hart]:
                entries.append([str(hart), ":", register(r, other), "=", *self.value()])
        r.shuffle(entries)
        return entries

    def start(self):
        words = ["{"]
        for entry in self.entries():
            words += [*entry, ";"]
        return words[: -1 if self.r.random() < 0.3 else None] + ["}"]

    def base(self, hart):
        r = self.r
        return register(r, r.choice(REGISTERS if r.random() < 0.03 else self.bases[hart]))

    def any_register(self):
        r = self.r
        return "x0" if r.random() < 0.05 else register(r, r.choice(REGISTERS if r.random() < 0.95 else BASES))

    def source(self, hart):
        """A register whose number goes to memory, which is often another one than 0."""
        holding = self.holding[hart] + self.written[hart]
        if not holding or self.r.random() < 0.1:
            return self.any_register()
        return register(self.r, self.r.choice(holding))

    def target(self, hart):
        """A register that an instruction writes."""
        r, number_of_register = self.r, self.r.choice(REGISTERS if self.r.random() < 0.97 else BASES)
        self.written[hart].append(number_of_register)
        return "x0" if r.random() < 0.02 else register(r, number_of_register)

    def instruction(self, hart, labels):
        """The words of an instruction, which may go to one of these labels."""
        r = self.r
        makes = [self.access] * 6 + [self.ordered] * 4 + [self.arithmetic] * 2 + [self.fence]
        make = r.choice(makes + [self.branch] * (2 if labels else 0))
        return make(hart, labels)

    def access(self, hart, _labels):
        r = self.r
        name = r.choice(r.choice((LOADS, STORES)))
        inside = ("1", "2", "3", "0x2", "4") if name[1] in "bh" else ("4", "0x0", "0", "0")
        offset = r.choice(([], [], ["0"], ["0"], ["0"], ["0"], ["0"], [r.choice(inside)], [r.choice(inside)], [],
                           number(r, r.choice((1, 2, 4, 8, -4, 256, 2047)))))
        first = self.source(hart) if name in STORES else self.target(hart)
        return [name, first, ",", *offset, "(", self.base(hart), ")"]

    def ordered(self, hart, _labels):
        r = self.r
        name = r.choice(("lr.w", "sc.w", "lr.w", "sc.w", *ATOMICS[:5], r.choice(ATOMICS)))
        second = [] if name == "lr.w" else [self.source(hart), ","]
        offset = ["0"] if r.random() < 0.2 else []
        return [name + r.choice(ORDERS), self.target(hart), ",", *second, *offset, "(", self.base(hart), ")"]

    def arithmetic(self, hart, _labels):
        r, first = self.r, self.target(hart)
        name = r.choice(("li", "li", "la", "mv", "nop", "lui", r.choice(IMMEDIATES), r.choice(IMMEDIATES),
                         r.choice(THREE_REGISTERS), r.choice(THREE_REGISTERS)))
        if name == "nop":
            return [name]
        if name == "li":
            return [name, first, ",", *number(r, r.choice(NUMBERS))]
        if name == "la":
            return [name, register(r, r.choice(self.bases[hart])), ",", *self.address()]
        if name == "lui":
            return [name, first, ",", *number(r, r.choice((0, 1, 0x80000, 0xFFFFF)))]
        words = [name, first, ",", self.any_register()]
        if name in SHIFTS:
            return [*words, ",", *number(r, r.choice((0, 1, 31)))]
        if name in IMMEDIATES:
            return [*words, ",", *number(r, r.choice((0, 1, 2, 4, -1, 2047, -2048)))]
        return words if name == "mv" else [*words, ",", self.any_register()]

    def branch(self, _hart, labels):
        r, name = self.r, self.r.choice(BRANCHES)
        registers = 0 if name == "j" else 1 if name.endswith("z") else 2
        words = [name]
        for _ in range(registers):
            words += [self.any_register(), ","]
        return [*words, r.choice(labels)]

    def fence(self, _hart, _labels):
        sets = ("rw", "w", "r", "iorw", "o", "i", "or", "wr", "rr")
        tail = [self.r.choice(sets), ",", self.r.choice(sets)]
        return self.r.choice((["fence"], ["fence.tso"], ["fence", *tail]))

    def column(self, hart, rows):
        """The cells of a hart."""
        r = self.r
        labels = [f"L{k}" for k in range(rows)]
        placed, cells = [], []
        for row in range(rows):
            words = []
            if r.random() < 0.85:
                # A branch goes forward, most of the time.
                back = placed if r.random() < 0.15 else []
                words = self.instruction(hart, back or labels[row + 1 :])
                self.loops |= bool(back)
            if any(labels[row] in cell for cell in cells) or r.random() < 0.15:
                words = [labels[row], ":", *words]
                placed.append(labels[row])
            cells.append(words)
        return cells

    def rows(self):
        count = self.r.choice(ROWS[self.harts])
        columns = [self.column(hart, count) for hart in range(self.harts)]
        words = []
        for row in zip(*columns):
            for hart, cell in enumerate(row):
                words += (["|"] if hart else []) + cell
            words.append(";")
        return words

    def observed(self):
        """What is looked at, and the bytes of its number."""
        r = self.r
        if r.random() < 0.35:
            return self.location()
        hart = r.randrange(self.harts)
        return [str(hart), ":", register(r, r.choice(self.written[hart] or REGISTERS))], 4

    def condition(self, depth):
        r = self.r
        kind = r.random()
        if depth == 0 or kind < 0.25:
            sign = r.choice(("=", "=", "=", "!="))
            what, size = self.observed()
            return ["true"] if r.random() < 0.05 else [*what, sign, *self.value(size)]
        if kind < 0.4:
            return [r.choice(("~", "not")), *self.condition(0 if r.random() < 0.5 else depth - 1)]
        if kind < 0.55:
            return ["(", *self.condition(depth - 1), ")"]
        sign = r.choice(("/\\", "/\\", "\\/", "\\/", "=>", "<=>"))
        return [*self.condition(depth - 1), sign, *self.condition(depth - 1)]

    def listed(self):
        r, words = self.r, ["locations", "["]
        for _ in range(r.choice((0, 2, 4, 6))):
            is_whole = r.random() < 0.15
            words += [*([r.choice(self.names)] if is_whole else self.observed()[0]), ";"]
        return [*words[: -1 if len(words) > 2 and r.random() < 0.2 else None], "]"]

    def question(self):
        r, parts = self.r, []
        if r.random() < 0.7:
            parts.append(self.listed())
        if r.random() < 0.2:
            parts.append(["filter", *self.condition(r.choice((0, 1, 2)))])
        has_list = any(part[0] == "locations" for part in parts)
        r.shuffle(parts)
        words = [word for part in parts for word in part]
        if has_list and r.random() < 0.1:
            return words
        words += r.choice((["exists"], ["exists"], ["~", "exists"], ["forall"], ["not", "exists"]))
        condition = self.condition(r.choice((0, 1, 2, 3)))
        return words + (["(", *condition, ")"] if r.random() < 0.6 else condition)


def some_test(r):
    """A test, and whether a branch of it goes back."""
    maker = Maker(r)
    words = maker.start()
    for hart in range(maker.harts):
        words += ["|"] * (hart > 0) + [f"P{hart}"]
    words += [";", *maker.rows(), *maker.question()]
    name = r.choice(("SB", "MP+fence.rw.rw", "a b", "t\t", "(* n *)", "\xe9")) + r.choice(("\n", "\n", " \n", "\r\n"))
    head = r.choice(("", "", "", "(* RISCV *)", "\n ")) + "RISCV" + r.choice((" ", " ", "\t")) + name
    text = head + r.choice(HEADS) + spaced(r, words) + r.choice(("", "\n", "\n", " (* end *)"))
    return text.encode("latin-1"), maker.loops
