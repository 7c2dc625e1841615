"""The sizes that growths ask for, for `tools/test memory-faults`: each has to be a length in hand,
a sum of such, or a constant of at most a MiB. So no more is asked for than what is there already,
as often as a sum has parts.

An expression is followed through the variables and the parameters of a function, the calls of the
libraries, and their constants. A difference, a quotient, a remainder and a shift to the right are
no more than their first part. The least of several is a length if one of them is, and the greatest
if all are. A product is a sum of few parts if the first of its parts is a constant of at most
MOST_PARTS. Any other is a finding, and so is a shift to the left. So is whatever is not understood,
unless a contract bounds it: a clause of the function says that the name is, or is at most, a length
or a `MAX_`.. of the definitions; or a clause names a definition of BOUNDING, of which these names
are parts."""

import functools
import operator
import re
from collections.abc import Callable, Iterable, Iterator
from dataclasses import dataclass, field
from typing import NamedTuple

from .functions import Function

# So many at most; and where a refusal is no fault, as many bytes as the longest file has, and one
# more.
MOST = 1 << 20
MOST_UNWANTED = (1 << 30) + 1
# The calls that grow by a number.
SIZED = {
    "with_capacity",
    "with_capacity_and_hasher",
    "reserve",
    "reserve_exact",
    "try_reserve",
    "try_reserve_exact",
    "resize",
    "resize_with",
    "vec!",
}
CALL = re.compile(rf"\b(?:{'|'.join(map(re.escape, SIZED))})(?=[(\[])")
# Definitions, and the numbers of which each says that they are no more than a length in hand, or
# than those of the crate allow.
BOUNDING = {
    "AreHashWords": {"nchain"},
    "HasTables": {"sections", "segments"},
    "IsBuilt": {"nbucket"},
}
BOUND = r"(?:≡|≤|<) (?:[^{}]*\b)?(?:length|vec_len|MAX_\w+)\b"
# A number; a name, with its path; or a sign.
TOKEN = re.compile(
    r"\s*(\d\w*|[A-Za-z_]\w*(?:::(?:<[^()]*?>)?\w*)*!?"
    r"|<<|>>|&&|\|\||[<>=!]=|\.\.=?|[-+*/%&|^.,?(){}\[\]<>=!;:])"
)
LEVELS = [{"|"}, {"^"}, {"&"}, {"<<", ">>"}, {"+", "-"}, {"*", "/", "%"}]
VALUES: dict[str, Callable[[int, int], int]] = {
    "+": operator.add,
    "-": operator.sub,
    "*": operator.mul,
    "/": operator.floordiv,
    "%": operator.mod,
    "<<": operator.lshift,
    ">>": operator.rshift,
    "&": operator.and_,
    "|": operator.or_,
    "^": operator.xor,
}
# What the value of an operator or a method is bounded by: all of its parts, one of them, or the
# first.
ALL = {"+", "|", "^", "max", "saturating_add", "checked_add", "wrapping_add", "unwrap_or"}
ANY = {"%", "&", "min"}
FIRST = {
    "-",
    "/",
    ">>",
    "saturating_sub",
    "checked_sub",
    "div_ceil",
    "isqrt",
    "next_power_of_two",
    "unwrap_or_default",
}
LENGTHS = {"len", "capacity"}
# A product by a constant of at most so much is as a sum of so many parts.
MOST_PARTS = 4
# An arm of a `match` that is one line.
ARM = re.compile(r"\S.* => (\S.*),")
OPENING = "([{"
CLOSING = ")]}"


@dataclass
class Node:
    """An expression: an operator, a method or a call, by its name, with its parts; a name; or a
    number."""

    kind: str
    name: str
    parts: list["Node"] = field(default_factory=list)


# Functions and names of which it is being asked whether they are bounded.
Seen = set[tuple[Function, str]]


class Unread(ValueError):
    """What is no expression of this kind."""


class Parser:
    """Reads an expression of numbers."""

    def __init__(self, text: str) -> None:
        self.tokens: list[str] = []
        at = 0
        text = text.strip()
        while at < len(text):
            found = TOKEN.match(text, at)
            if not found:
                raise Unread(text)
            self.tokens.append(found[1])
            at = found.end()
        self.at = 0

    def peek(self) -> str:
        """The next token; nothing at the end."""
        return self.tokens[self.at] if self.at < len(self.tokens) else ""

    def take(self, wanted: str = "") -> str:
        """Goes past the next token, which has to be this one, if one is given."""
        found = self.peek()
        if not found or wanted and found != wanted:
            raise Unread(f"{found} where {wanted or 'something'} is wanted")
        self.at += 1
        return found

    def whole(self) -> Node:
        """The expression, up to the end of the text."""
        found = self.binary(0)
        if self.peek():
            raise Unread(self.peek())
        return found

    def binary(self, level: int) -> Node:
        """An expression of operators of this level and above."""
        if level == len(LEVELS):
            return self.cast()
        found = self.binary(level + 1)
        while self.peek() in LEVELS[level]:
            found = Node("of", self.take(), [found, self.binary(level + 1)])
        return found

    def cast(self) -> Node:
        """An expression with casts, which change nothing here."""
        found = self.unary()
        while self.peek() == "as":
            self.take()
            self.take()
        return found

    def unary(self) -> Node:
        """An expression with borrows, which change nothing here."""
        while self.peek() in ("*", "&", "mut"):
            self.take()
        return self.postfix(self.primary())

    def primary(self) -> Node:
        """A number, a name, a call, or an expression in brackets."""
        token = self.take()
        if token == "(":
            found = self.binary(0)
            self.take(")")
            return found
        if token[0].isdigit():
            return Node("number", token)
        is_name = token[0].isalpha() or token[0] == "_"
        if not is_name or token in ("if", "match", "unsafe", "loop"):
            raise Unread(token)
        return Node("call", token, self.arguments()) if self.peek() == "(" else Node("name", token)

    def postfix(self, found: Node) -> Node:
        """What fields, methods and indexes make of an expression."""
        while self.peek() in (".", "?", "["):
            token = self.take()
            if token == "[":
                self.skip("]")
                found = Node("field", "[]", [found])
            elif token == ".":
                name = self.take()
                if self.peek() == "(":
                    found = Node("of", name, [found, *self.arguments()])
                else:
                    found = Node("field", name, [found])
        return found

    def arguments(self) -> list[Node]:
        """The arguments of a call; one that is no number is a name that says nothing."""
        self.take("(")
        found: list[Node] = []
        while self.peek() != ")":
            start = self.at
            try:
                found.append(self.binary(0))
                if self.peek() not in (",", ")"):
                    raise Unread(self.peek())
            except Unread:
                self.at = start
                self.skip(",", ")")
                self.at -= 1
                found.append(Node("unknown", "?"))
            if self.peek() == ",":
                self.take()
        self.take(")")
        return found

    def skip(self, *ends: str) -> None:
        """Goes past the first of these that is in no brackets."""
        level = 0
        while level or self.peek() not in ends:
            token = self.take()
            level += (token in OPENING) - (token in CLOSING)
        self.take()


def parts_of(text: str, start: int, separators: str) -> list[str]:
    """What is between the bracket at `start` and its end, cut at these signs where they are in no
    further brackets."""
    level = 0
    found: list[str] = []
    last = start + 1
    for at in range(start, len(text)):
        level += (text[at] in OPENING) - (text[at] in CLOSING)
        if level == 0 or level == 1 and text[at] in separators:
            found.append(text[last:at].strip())
            last = at + 1
        if level == 0:
            break
    return [it for it in found if it]


@functools.cache
def body_of(function: Function) -> str:
    """The lines of a function in one."""
    return " ".join(function.lines[at].strip() for at in function.inner)


class Growth(NamedTuple):
    """A growth by a number: its line, its size, and whether its refusal is a fault."""

    line: int
    size: str
    is_wanted: bool


def size_of(text: str, call: re.Match[str]) -> str:
    """The size of a growth by this call; nothing where it is by no number."""
    name = call[0]
    parts = parts_of(text, call.end(), ";" if name == "vec!" else ",")
    if name == "vec!":
        # `vec![in ALLOC; VALUE; COUNT]`; one with fewer parts has its elements.
        parts = parts[2:] if parts and parts[0].startswith("in ") else parts[1:]
    elif name.startswith("with_capacity"):
        # The allocator is before it.
        parts = parts[1:]
    return parts[0] if parts else ""


@functools.cache
def growths_in(function: Function) -> list[Growth]:
    """The growths of a function that are by a number."""
    growths: list[Growth] = []
    starts: list[int] = []
    text = ""
    for at in function.inner:
        starts.append(len(text))
        text += function.lines[at].strip() + " "
    for found in CALL.finditer(text):
        line = max(k for k, start in enumerate(starts) if start <= found.start())
        if size := size_of(text, found):
            is_wanted = not re.search(r"\blet _ = [^;]*$", text[: found.start()])
            growths.append(Growth(function.begin + 1 + line, size, is_wanted))
    return growths


# A constant, and its value.
CONSTANT = re.compile(
    r"^ *(?:pub(?:\(crate\))? )?const (\w+): u(?:size|8|16|32|64) = ([^;]*);", re.M
)


def is_said_of_result(function: Function) -> bool:
    """Whether a clause of a function says that its result is at most a length."""
    ensured = re.search(rf"\bensures[^{{]*\{{[^{{}}]*\bresult {BOUND}", function.clauses)
    return bool(ensured or re.search(rf"\bresult\b[^{{}}]* {BOUND}", function.clauses))


class Sizes:
    """What the sizes in these functions are bounded by."""

    def __init__(self, functions: Iterable[Function], texts: Iterable[str]) -> None:
        self.named: dict[str, list[Function]] = {}
        for it in functions:
            self.named.setdefault(it.name, []).append(it)
        self.bodies = {it: body_of(it) for own in self.named.values() for it in own}
        self.most = MOST
        self.constants: dict[str, set[str]] = {}
        for text in texts:
            for name, value in CONSTANT.findall(text):
                self.constants.setdefault(name, set()).add(value)

    def findings(self, function: Function) -> Iterator[tuple[int, str]]:
        """Of each growth in it that asks for too much the line, and why."""
        for it in growths_in(function):
            self.most = MOST if it.is_wanted else MOST_UNWANTED
            why = self.judge_text(function, it.size, set())
            if why:
                yield it.line, f"a growth by {it.size}: {why}"

    # ---- What an expression is bounded by: nothing where it is, or why it is not

    def value(self, node: Node) -> int | None:
        """The number that an expression of constants is."""
        if node.kind == "number":
            return int(re.sub(r"_?[iu](size|8|16|32|64)$", "", node.name).replace("_", ""), 0)
        if node.kind == "name":
            name = node.name.split("::")[-1]
            if name in ("MAX", "BITS"):
                return 1 << 64
            values = {self.value(Parser(it).whole()) for it in self.constants.get(name, ())}
            known = [it for it in values if it is not None]
            return max(known) if known and len(known) == len(values) else None
        if node.kind == "of" and node.name in VALUES:
            one, other = map(self.value, node.parts)
            return None if one is None or other is None else VALUES[node.name](one, other)
        return None

    def judge(self, function: Function, node: Node, seen: Seen) -> str:
        """Why an expression is not bounded; nothing where it is."""
        try:
            value = self.value(node)
        except (Unread, ZeroDivisionError):
            value = None
        if value is not None:
            return "" if 0 <= value <= self.most else f"{value} is above {self.most}"
        if node.kind == "of":
            return self.judge_operator(function, node, seen)
        if node.kind == "call":
            return self.judge_call(function, node, seen)
        if node.kind == "name" and re.fullmatch(r"\w+", node.name):
            return self.judge_name(function, node.name, seen)
        is_field = node.kind == "field" and node.name != "[]"
        if is_field and self.is_bounded(function, node.name):
            return ""
        return f"{node.name} is no length in hand"

    def judge_operator(self, function: Function, node: Node, seen: Seen) -> str:
        """What an operator or a method makes is bounded by its parts."""
        name = node.name
        if name in LENGTHS and len(node.parts) == 1:
            return ""
        if name in ALL | ANY:
            found = [self.judge(function, it, seen) for it in node.parts]
            return next(filter(None, found), "") if name in ALL or all(found) else ""
        if name in FIRST:
            return self.judge(function, node.parts[0], seen)
        if name == "*" and self.is_few(node.parts[0]):
            return self.judge(function, node.parts[1], seen)
        if name in VALUES:
            return f"{name} makes it longer than its parts"
        if name in self.named:
            return self.judge_call(function, node, seen)
        return f"{name} is no method of lengths"

    def is_few(self, node: Node) -> bool:
        """Whether it is a constant so small that a product by it is as a sum of few parts."""
        try:
            value = self.value(node)
        except (Unread, ZeroDivisionError):
            return False
        return value is not None and 0 <= value <= MOST_PARTS

    def judge_call(self, function: Function, node: Node, seen: Seen) -> str:
        """All functions of this name are bounded: by a contract, or what they answer is."""
        *_, name = node.name.split("::")
        if node.name in ("usize::from", "u64::from", "u32::from", "usize::try_from"):
            return self.judge(function, node.parts[0], seen)
        found = [it for it in self.named.get(name, ()) if "->" in it.head]
        if not found:
            return f"{name} is no function of the libraries"
        if self.is_bounded(function, name):
            return ""
        for it in found:
            if not is_said_of_result(it) and (it, "") not in seen:
                why = self.judge_answer(it, seen | {(it, "")})
                if why:
                    return f"{name}: {why}"
        return ""

    def judge_answer(self, function: Function, seen: Seen) -> str:
        """What a function answers is bounded."""
        found = (self.judge_text(function, it, seen) for it in answers_of(function))
        return next(filter(None, found), "")

    def is_bounded(self, function: Function, name: str) -> bool:
        """Whether a clause of the function says that what has this name is at most a length."""
        words = set(re.findall(r"\w+", function.clauses))
        if any(name in names for definition, names in BOUNDING.items() if definition in words):
            return True
        clauses = re.findall(r"\b(?:requires|ensures)\b[^{]*\{([^{}]*)\}", function.clauses)
        return any(re.search(rf"(?<![\w]){name}\b[^≡≤<→]*{BOUND}", it) for it in clauses)

    def judge_name(self, function: Function, name: str, seen: Seen) -> str:
        """A variable or a parameter: all that it is made of is bounded, or a clause says that it
        is."""
        if (function, name) in seen or self.is_bounded(function, name):
            return ""
        seen = seen | {(function, name)}
        body = self.bodies[function]
        made = re.findall(
            rf"(?:\blet (?:mut )?|(?<![\w.]))\(?{name}\)?(?:: \w+)? [-+]?= ([^;]*?)(?: else \{{|;)",
            body,
        )
        made += re.findall(rf"\b(?:Some|Ok)\({name}\) = ([^;]*?)(?: else)? \{{", body)
        made += re.findall(rf"\bfor {name} in [^.]*\.\.=?(.*?) \{{", body)
        if re.search(rf"(?<![\w.]){name} (?:\*|<<|\||\^)= ", body):
            return f"{name} is multiplied"
        if not made:
            return self.judge_parameter(function, name, seen)
        return next(filter(None, (self.judge_text(function, it, seen) for it in made)), "")

    def judge_text(self, function: Function, text: str, seen: Seen) -> str:
        """What a text is, an expression, is bounded."""
        try:
            return self.judge(function, Parser(text).whole(), seen)
        except Unread:
            return f"`{text}` is no length in hand"

    def judge_parameter(self, function: Function, name: str, seen: Seen) -> str:
        """All calls of the function give it a length there."""
        head = function.head
        words = parts_of(head, head.index("("), ",") if "(" in head else []
        names = [re.sub(r"^mut ", "", it.partition(":")[0].strip()) for it in words]
        if name not in names:
            return f"{name} is no length in hand"
        is_method = names[0] in ("self", "&self", "&mut self")
        position = names.index(name) - is_method
        given: list[tuple[Function, str]] = []
        call = call_of(function, is_method)
        for own, body in self.bodies.items():
            for found in call.finditer(body):
                arguments = parts_of(body, found.end(), ",")
                given.append((own, arguments[position] if position < len(arguments) else "?"))
        if not given:
            return f"nothing in the libraries gives {function.name} its {name}"
        return next(filter(None, (self.judge_text(own, it, seen) for own, it in given)), "")


def answers_of(function: Function) -> list[str]:
    """What a function answers: its last line, or each arm where it is one `match`."""
    lines = [function.lines[at].strip() for at in function.inner]
    arms = [ARM.fullmatch(it) for it in lines[1:-1]]
    if len(lines) > 2 and lines[0].startswith("match ") and all(arms):
        return [it[1] for it in arms if it]
    return lines[-1:] or ["?"]


def call_of(function: Function, is_method: bool) -> re.Pattern[str]:
    """How a function is called: as a method, below its type, or by its path."""
    owner = re.search(r"(\w+)(?:<[^<>]*>)? \{$", function.outer)
    if is_method:
        lead = r"\."
    elif owner:
        lead = rf"\b{owner[1]}::"
    else:
        lead = r"(?<![.\w])(?:\w+::)*"
    return re.compile(rf"{lead}{function.name}(?:::<[^()]*>)?(?=\()")
