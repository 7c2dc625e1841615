"""The link of objects: rules 1 to 16 of the link in docs/RULES.md, each a function of its name
there, which gives every place where it stands, a file, an index and an entry; the link map and the
relocated bytes. A rule is asked only of a link where those before it do not stand. Addresses have
no bound."""
import objects
from image import is_power_of_two
from objects import ABS, COMMON, RELOCATIONS, UNDEF
from records import GROUP, NOBITS, REL

SHF_ALLOC = 2
SHF_LINK_ORDER = 0x80
SHF_GROUP = 0x200
SHF_TLS = 0x400
LOCAL = 0
GLOBAL = 1
WEAK = 2
STT_TLS = 6
COMDAT = 1


class Link:
    """Objects, where their first output section begins at the earliest, each at a multiple of the
    page, and where there is one the name of the entry point."""

    def __init__(self, files, base, page, rules=None, entry=None):
        self.files = files
        self.base = base
        self.page = page
        self.rules = rules
        self.entry = entry
        self.discarded = set(discarded(files))
        self.entries = {}
        for f, k, symbol in self.symbols():
            if binding_of(symbol) != LOCAL:
                self.entries.setdefault(symbol.name, []).append((f, k, symbol))

    def symbols(self):
        return [
            (f, k, symbol) for f, it in enumerate(self.files) for k, symbol in enumerate(it.symbols)
        ]

    def sections(self):
        return [
            (f, s, it) for f, file in enumerate(self.files) for s, it in enumerate(file.sections)
        ]

    def is_live(self, f, s):
        it = self.files[f].sections[s]
        return (
            bool(it.flags & SHF_ALLOC)
            and it.type not in (GROUP, *RELOCATIONS)
            and (f, s) not in self.discarded
        )

    def live(self):
        return [(f, s, it) for f, s, it in self.sections() if self.is_live(f, s)]

    def is_definition(self, f, symbol):
        return (
            symbol.reserved == ABS
            or symbol.section is not None
            and (f, symbol.section) not in self.discarded
        )

    def bound(self, name):
        """What a name is bound to: a kind, and the symbol, or the size and the alignment of a
        common; None where it is bound to nothing."""
        entries = self.entries[name]
        definitions = [(f, k, it) for f, k, it in entries if self.is_definition(f, it)]
        commons = [it for _, _, it in entries if it.reserved == COMMON]
        for found in definitions:
            if binding_of(found[2]) == GLOBAL:
                return "strong", found
        if commons:
            return "common", (max(it.size for it in commons), max(it.value for it in commons))
        if definitions:
            return "weak", definitions[0]
        return ("zero", None) if all(binding_of(it) == WEAK for _, _, it in entries) else None


def binding_of(symbol):
    return symbol.info // 16


def comdat_groups(files):
    return [
        (f, s, it)
        for f, file in enumerate(files)
        for s, it in enumerate(file.sections)
        if it.type == GROUP and it.body[0] == COMDAT
    ]


def signature(files, f, group):
    return files[f].symbols[group.info - 1].name


def discarded(files):
    """The members of each COMDAT group that has the signature of an earlier one."""
    seen = set()
    for f, _, group in comdat_groups(files):
        name = signature(files, f, group)
        if name in seen:
            yield from ((f, member) for member in group.body[1])
        seen.add(name)


# ---- rules 1 to 11


def bad_options(link):
    return [] if is_power_of_two(link.page) and link.base % link.page == 0 else [(0, 0, 0)]


def mismatch(link):
    kinds = [(it.order, it.machine, it.flags) for it in link.files]
    return [(f, 0, 0) for f, kind in enumerate(kinds) if kind != kinds[0]]


def tls(link):
    return [(f, s, 0) for f, s, it in link.live() if it.flags & SHF_TLS]


def link_order(link):
    return [(f, s, 0) for f, s, it in link.live() if it.flags & SHF_LINK_ORDER]


def empty_signature(link):
    return [
        (f, s, 0) for f, s, it in comdat_groups(link.files) if signature(link.files, f, it) == b""
    ]


def bad_symbol(link):
    return [
        (f, k, 0)
        for f, k, it in link.symbols()
        if binding_of(it) > WEAK
        or it.info % 16 == STT_TLS
        or binding_of(it) != LOCAL
        and it.name == b""
    ]


def bad_common(link):
    return [
        (f, k, 0)
        for f, k, it in link.symbols()
        if it.reserved == COMMON and (binding_of(it) != GLOBAL or not is_power_of_two(it.value))
    ]


def two_definitions(link):
    found = []
    for entries in link.entries.values():
        strong = [
            (f, k, 0)
            for f, k, it in entries
            if binding_of(it) == GLOBAL and link.is_definition(f, it)
        ]
        found += strong[1:]
    return found


def undefined_name(link):
    return [
        (f, k, 0)
        for name, entries in link.entries.items()
        for f, k, it in entries
        if binding_of(it) == GLOBAL
        and it.reserved != COMMON
        and not link.is_definition(f, it)
        and link.bound(name) is None
    ]


def no_entry(link):
    if link.entry is None:
        return []
    if link.entry not in link.entries or link.bound(link.entry) is None:
        return [(0, 0, 0)]
    value, kind = value_of(link, addresses(link), placed(link)[1], link.entry)
    return [(0, 0, 0)] if kind == "zero" or value is None or value >= 2**64 else []


def address_overflow(link):
    return [(0, 0, 0)] if any(address + size >= 2**64 for address, size in places(link)) else []


# ---- where everything stands


def size_of(it):
    return it.body if it.type == NOBITS else len(it.body)


def up(address, alignment):
    return -(-address // alignment) * alignment


def outputs(link):
    """The output sections in their order, by their keys: the name, the flags, and whether it has no
    bits; each with its members."""
    found = {}
    for f, s, it in link.live():
        found.setdefault((it.name, it.flags & ~SHF_GROUP, it.type == NOBITS), []).append((f, s, it))
    return sorted(found.items(), key=lambda output: output[0][2])


def commons(link):
    """The names that are bound to a common, in the order of their first common entries, with its
    size and alignment."""
    first = {
        name: next((f, k) for f, k, it in entries if it.reserved == COMMON)
        for name, entries in link.entries.items()
        if (link.bound(name) or ("",))[0] == "common"
    }
    return [(name, *link.bound(name)[1]) for name in sorted(first, key=first.get)]


def placed(link):
    """For each output section its key, its address, its length and its members with their
    addresses; then of each common the address."""
    cursor = link.base
    all_outputs = []
    for key, members in outputs(link):
        start = cursor = up(cursor, max([link.page] + [max(1, it.align) for _, _, it in members]))
        at = []
        for f, s, it in members:
            cursor = up(cursor, max(1, it.align))
            at.append((f, s, cursor))
            cursor += size_of(it)
        all_outputs.append((key, start, cursor - start, at))
    chosen = commons(link)
    if chosen:
        cursor = up(cursor, max([link.page] + [align for _, _, align in chosen]))
    at = {}
    for name, size, align in chosen:
        at[name] = cursor = up(cursor, align)
        cursor += size
    return all_outputs, at


def places(link):
    """The address and the size of each live section and each common."""
    all_outputs, common_at = placed(link)
    members = [
        (at, size_of(link.files[f].sections[s]))
        for _, _, _, members in all_outputs
        for f, s, at in members
    ]
    return members + [(common_at[name], size) for name, size, _ in commons(link)]


def addresses(link):
    return {(f, s): at for _, _, _, members in placed(link)[0] for f, s, at in members}


def own_value(link, at, f, symbol):
    """The value of a symbol that is defined: None where its section has no address."""
    if symbol.reserved == ABS:
        return symbol.value
    return at[f, symbol.section] + symbol.value if (f, symbol.section) in at else None


def value_of(link, at, common_at, name):
    """The value of a name, with the kind of what it is bound to."""
    kind, found = link.bound(name)
    if kind in ("strong", "weak"):
        return own_value(link, at, found[0], found[2]), kind
    return common_at[name] if kind == "common" else 0, kind


# ---- relocations


def applied(link):
    """The entries that are applied, in order: file, section, entry, the target, the rule of its
    kind, offset, symbol and addend."""
    found = []
    for f, s, it in link.sections():
        if it.type in RELOCATIONS and (f, s) not in link.discarded and link.is_live(f, it.info):
            for e, (offset, symbol, kind, addend) in enumerate(it.body):
                rule = next((rule for rule in link.rules if rule[0] == kind), None)
                found.append((f, s, e, it, rule, offset, symbol, addend))
    return found


def fields(link):
    """Those that have a field."""
    return [it for it in applied(link) if it[4][1] != "none"]


def no_rule(link):
    return [(f, s, e) for f, s, e, _, rule, *_ in applied(link) if rule is None]


def symbol_value(link, f, k):
    """The value of the symbol of an entry, 0 where there is none; None where it has no value."""
    if k == 0:
        return 0
    symbol = link.files[f].symbols[k - 1]
    if binding_of(symbol) == LOCAL:
        if symbol.section is None and symbol.reserved == UNDEF:
            return None
        return own_value(link, link.at, f, symbol)
    return value_of(link, link.at, link.common_at, symbol.name)[0]


def unplaced(link):
    return [
        (f, s, e)
        for f, s, e, _, _, _, symbol, _ in fields(link)
        if symbol_value(link, f, symbol) is None
    ]


def field_out_of_range(link):
    return [
        (f, s, e)
        for f, s, e, it, rule, offset, *_ in fields(link)
        if offset + rule[2] > size_of(link.files[f].sections[it.info])
    ]


def fields_overlap(link):
    owners = set()
    found = []
    for f, s, e, it, rule, offset, *_ in fields(link):
        own = {(f, it.info, at) for at in range(offset, offset + rule[2])}
        found += [(f, s, e)] if own & owners else []
        owners |= own
    return found


def number(link, entry):
    """The number of a field."""
    f, _, _, it, (_, form, width, numbers), offset, symbol, addend = entry
    file = link.files[f]
    if it.type == REL:
        field = file.sections[it.info].body[offset : offset + width]
        addend = int.from_bytes(field, file.order, signed=numbers != "unsigned")
    elif addend >= 2**63:
        addend -= 2**64
    place = link.at[f, it.info] + offset
    return symbol_value(link, f, symbol) + addend - (place if form == "pc" else 0)


def admits(rule, n):
    _, _, width, numbers = rule
    bits = 8 * width
    if numbers == "wrap":
        return True
    if numbers == "signed":
        return -(2 ** (bits - 1)) <= n < 2 ** (bits - 1)
    return 0 <= n < 2**bits


def value_out_of_range(link):
    return [
        (f, s, e)
        for f, s, e, *rest in fields(link)
        if not admits(rest[1], number(link, (f, s, e, *rest)))
    ]


def relocated(link):
    """The bytes of each live section with bits, by file and section."""
    found = {(f, s): bytearray(it.body) for f, s, it in link.live() if it.type != NOBITS}
    for entry in fields(link):
        f, _, _, it, rule, offset, *_ = entry
        width = rule[2]
        own = number(link, entry) % 2 ** (8 * width)
        found[f, it.info][offset : offset + width] = own.to_bytes(width, link.files[f].order)
    return found


# ---- what is said

LINK_RULES = [
    (1, bad_options),
    (2, mismatch),
    (3, tls),
    (4, link_order),
    (5, empty_signature),
    (6, bad_symbol),
    (7, bad_common),
    (8, two_definitions),
    (9, undefined_name),
    (10, no_entry),
    (11, address_overflow),
]
RELOCATION_RULES = [
    (12, no_rule),
    (13, unplaced),
    (14, field_out_of_range),
    (15, fields_overlap),
    (16, value_out_of_range),
]


def word(name):
    """A name as a word of a line."""
    if name == b"":
        return "-"
    is_plain = all(0x21 <= byte <= 0x7E for byte in name) and name[:1] != b"#" and name != b"-"
    return name.decode("ascii") if is_plain else "#" + name.hex()


def rules_of(text):
    """The relocation rules of a file of rules: kind, form, width in bytes, and the numbers that it
    admits."""
    lines_of = [line.split(" ") for line in text.decode().splitlines()]
    return [(int(kind), form, int(width), numbers) for kind, form, width, numbers in lines_of]


def first_standing(rules, link):
    for rule, test in rules:
        found = test(link)
        if found:
            return "refused %d %d %d %d\n" % (rule, *min(found))
    return None


def validated(contents, base, page, rules=None, entry=None):
    """The line of a refusal, or None; and the link of these files, with relocation rules or
    without."""
    for f, content in enumerate(contents):
        broken = objects.verdict(content)
        if broken:
            return "file %d refused %d %d\n" % (f, *broken), None
    link = Link([objects.object_of(content) for content in contents], base, page, rules, entry)
    refused = first_standing(LINK_RULES, link)
    if refused:
        return refused, link
    link.at, link.common_at = addresses(link), placed(link)[1]
    return first_standing(RELOCATION_RULES, link) if rules is not None else None, link


def map_lines(contents, base, page, rules=None):
    """What `elfmap map` says of these files."""
    refused, link = validated(contents, base, page, rules)
    return refused or "".join(line + "\n" for line in lines(link, placed(link)[0]))


def lines(link, all_outputs):
    for (name, flags, without_bits), start, length, members in all_outputs:
        bits = "nobits" if without_bits else "bits"
        yield f"output {start:#x} {length:#x} {bits} {flags:#x} {word(name)}"
        for f, s, at in members:
            yield f"member {at:#x} {size_of(link.files[f].sections[s]):#x} {f} {s}"
    for name, size, _ in commons(link):
        yield f"common {link.common_at[name]:#x} {size:#x} {word(name)}"
    for f, s in sorted(link.discarded):
        yield f"discarded {f} {s}"
    for name in link.entries:
        value, kind = value_of(link, link.at, link.common_at, name)
        yield f"name {'-' if value is None else hex(value)} {kind} {word(name)}"
    if link.rules is not None:
        content = relocated(link)
        for _, _, _, members in all_outputs:
            for f, s, _ in members:
                if (f, s) in content:
                    yield f"bytes {f} {s} {content[f, s].hex() or '-'}"
