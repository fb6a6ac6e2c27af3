"""The types of Types.idl, and of Pose.idl: what a topic of each carries, and its keys and values as words of a line, and in CDR.

The word of a datum is its octets in hexadecimal digits; that of a text or a reading is NUMBER,WORDS,VALUE,VALUE.., each value
with seventeen digits. A type of one's own is a Struct (cdr.py), as Pose is: with a line here, bridge.py takes its word."""
import struct

from cdr import CDR_LE, Payload, Struct, with_number, with_string
from cinchwalnut import Carries, KeyField


def words_of(left: Payload) -> str:
    """That of a Text."""
    number, said = left.number("i"), left.string()
    values = [left.number("d") for _ in range(left.number("I"))]
    return ",".join([str(number), said, *(f"{it:.17g}" for it in values)])


def with_words(body: bytes, word: str) -> bytes:
    """The fields of a Text behind those before them."""
    number, said, *values = word.split(",")
    body = with_string(with_number(body, "i", int(number)), said)
    body = with_number(body, "I", len(values))
    for it in values:
        body = with_number(body, "d", float(it))
    return body


class Datum:
    name, carries, fields = "interop::Datum", Carries.CDR, [KeyField(at, 1) for at in range(16)]

    @staticmethod
    def key(word: str) -> bytes:
        return bytes([*bytes(15), int(word)])

    @staticmethod
    def key_word(key: bytes) -> str:
        return str(key[15])

    @staticmethod
    def payload(key_word: str, word: str) -> bytes:
        octets = bytes.fromhex(word)
        return CDR_LE + with_number(Datum.key(key_word), "I", len(octets)) + octets

    @staticmethod
    def word(payload: bytes) -> str:
        left = Payload(payload)
        left.octets(16)
        return left.octets(left.number("I")).hex()


class Text:
    name, carries, fields = "interop::Text", Carries.KEYLESS, ()

    @staticmethod
    def key(word: str) -> bytes:
        return bytes(16)

    @staticmethod
    def key_word(key: bytes) -> str:
        return "0"

    @staticmethod
    def payload(key_word: str, word: str) -> bytes:
        return CDR_LE + with_words(b"", word)

    @staticmethod
    def word(payload: bytes) -> str:
        return words_of(Payload(payload))


class Reading:
    name, carries, fields = "interop::Reading", Carries.CDR, [KeyField(0, 4)]

    @staticmethod
    def key(word: str) -> bytes:
        return struct.pack(">i12x", int(word))

    @staticmethod
    def key_word(key: bytes) -> str:
        return str(struct.unpack_from(">i", key)[0])

    @staticmethod
    def payload(key_word: str, word: str) -> bytes:
        return CDR_LE + with_words(with_number(b"", "i", int(key_word)), word)

    @staticmethod
    def word(payload: bytes) -> str:
        left = Payload(payload)
        left.number("i")
        return words_of(left)


TYPES = {
    "datum": Datum,
    "text": Text,
    "reading": Reading,
    "pose": Struct("robot::Pose", "@key long robot; double x; double y"),
}
