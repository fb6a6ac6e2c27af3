"""CDR as the generated code of a product makes and reads it (XCDR1), and types of one's own in it.

A payload is representation, options and body; in the body each number stands at a multiple of its size."""
import hashlib
import re
import struct
from typing import NamedTuple

from cinchwalnut import Carries, KeyField

CDR_LE = bytes([0, 1, 0, 0])
FORMS = {
    **{"octet": "B", "boolean": "B", "uint8": "B", "int8": "b", "float": "f", "double": "d"},
    **{"short": "h", "unsigned short": "H", "int16": "h", "uint16": "H"},
    **{"long": "i", "unsigned long": "I", "int32": "i", "uint32": "I"},
    **{"long long": "q", "unsigned long long": "Q", "int64": "q", "uint64": "Q"},
}
STRING = "string"
SORT = r"(?:sequence ?< ?(?P<items>[a-z0-9 ]+?) ?(?:, ?\d+ ?)?>|(?P<sort>[a-z0-9 ]+?)(?: ?<\d+>)?)"
NAME = r"\w+(?: ?\[\d+\])?"
MEMBER = re.compile(rf"(?P<key>@key )?{SORT} ?\b(?P<names>{NAME}(?: ?, ?{NAME})*)")
TAKEN = "a number, boolean, octet or string, or an array or sequence of numbers; a struct in it is said by its members, an enumeration as long"


class Payload:
    """What is still to be read of a payload; ValueError where it is cut, or in no CDR."""

    def __init__(self, payload: bytes):
        if payload[:2] not in (b"\0\0", b"\0\1"):
            raise ValueError(f"a payload in another representation: {payload[:2].hex()}")
        self.body, self.order, self.at = payload[4:], "<" if payload[1] & 1 else ">", 0

    def octets(self, count: int) -> bytes:
        self.at += count
        if self.at > len(self.body):
            raise ValueError(f"a payload that is cut, at {len(self.body)}")
        return self.body[self.at - count : self.at]

    def number(self, form: str) -> int | float:
        """One of struct's forms; it stands at a multiple of its size."""
        size = struct.calcsize("=" + form)
        self.at += -self.at % size
        return struct.unpack(self.order + form, self.octets(size))[0]

    def string(self) -> str:
        return self.octets(self.number("I"))[:-1].decode()


def with_number(body: bytes, form: str, number: int | float, order: str = "<") -> bytes:
    return body + bytes(-len(body) % struct.calcsize("=" + form)) + struct.pack(order + form, number)


def with_string(body: bytes, text: str) -> bytes:
    said = text.encode() + b"\0"
    return with_number(body, "I", len(said)) + said


class Member(NamedTuple):
    """One of a Struct: a form of struct, or STRING; how many there are, None of a sequence."""

    name: str
    form: str
    is_key: bool
    count: int | None

    def number(self, text: str) -> int | float:
        return float(text) if self.form in "fd" else int(text)

    def put(self, body: bytes, text: str) -> bytes:
        """A body, and behind it the member that a part of a word says."""
        if self.form == STRING:
            return with_string(body, text)
        items = [self.number(it) for it in text.split(";") if it]
        if self.count is None:
            body = with_number(body, "I", len(items))
        elif len(items) != self.count:
            raise ValueError(f"{self.name} has {self.count}, and not {len(items)}: {text!r}")
        for it in items:
            body = with_number(body, self.form, it)
        return body

    def taken(self, left: Payload) -> str:
        """The part of a word that says the member."""
        if self.form == STRING:
            return left.string()
        count = left.number("I") if self.count is None else self.count
        return ";".join(str(left.number(self.form)) for _ in range(count))


def members_of(text: str) -> list[Member]:
    """The members that a struct's IDL has; ValueError of the first that is none of those that are taken."""
    found = []
    for line in filter(None, (" ".join(it.split()) for it in text.split(";"))):
        said = MEMBER.fullmatch(line)
        form = FORMS.get(said["items"]) or {STRING: STRING, **FORMS}.get(said["sort"]) if said else None
        of_line = [it.strip(" ]").partition("[") for it in said["names"].split(",")] if said else []
        if not form or form == STRING and any(count for _, _, count in of_line):
            raise ValueError(f"{line!r} is not {TAKEN}")
        found += [Member(name.strip(), form, bool(said["key"]), None if said["items"] else int(count or 1)) for name, _, count in of_line]
    return found


def key_fields_of(members: list[Member]) -> list[KeyField]:
    """Where the key members stand in each body; ValueError where one has no such place."""
    found, at = [], 0
    for it in members:
        if it.is_key and (it.form == STRING or it.count != 1 or at is None):
            raise ValueError(f"the key member {it.name} has to be one number, before all strings and sequences")
        if at is None or it.form == STRING or it.count is None:
            at = None
            continue
        size = struct.calcsize("=" + it.form)
        at += -at % size
        found += [KeyField(at, size)] if it.is_key else []
        at += size * it.count
    return found


class Struct:
    """A type of one's own: its name at the product, and its members as its IDL has them, with `;` between.

    The word of a key is the key members with commas between, 0 of a type without a key; that of a value the other members
    likewise. Items of an array or a sequence have `;` between."""

    def __init__(self, name: str, members: str):
        self.name, self.members = name, members_of(members)
        self.keys = [it for it in self.members if it.is_key]
        self.values = [it for it in self.members if not it.is_key]
        self.fields = key_fields_of(self.members)
        self.carries = Carries.CDR if self.keys else Carries.KEYLESS

    def parts(self, members: list[Member], word: str) -> list[str]:
        parts = word.split(",") if members else []
        if len(parts) != len(members):
            raise ValueError(f"{word!r} is not {','.join(it.name for it in members)}")
        return [it.strip() for it in parts]

    def key(self, word: str) -> bytes:
        """RTPS 2.5, 9.6.4.8."""
        body = b""
        for it, part in zip(self.keys, self.parts(self.keys, word)):
            body = with_number(body, it.form, it.number(part), ">")
        return body.ljust(16, b"\0") if len(body) <= 16 else hashlib.md5(body).digest()

    def key_word(self, key: bytes) -> str:
        """In hexadecimal digits where the key does not say its members."""
        if sum(it.size for it in self.fields) > 16:
            return key.hex()
        left = Payload(bytes(4) + key)
        return ",".join(str(left.number(it.form)) for it in self.keys) or "0"

    def payload(self, key_word: str, word: str) -> bytes:
        keys, values = (iter(self.parts(*it)) for it in ((self.keys, key_word), (self.values, word)))
        body = b""
        for it in self.members:
            body = it.put(body, next(keys if it.is_key else values))
        return CDR_LE + body

    def word(self, payload: bytes) -> str:
        left = Payload(payload)
        parts = [(it.is_key, it.taken(left)) for it in self.members]
        if len(left.body) - left.at > 3:
            raise ValueError(f"{len(left.body) - left.at} octets are left of a payload")
        return ",".join(part for is_key, part in parts if not is_key)
