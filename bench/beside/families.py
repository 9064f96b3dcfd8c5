"""The table of families: what wasm-check says otherwise than the crate, and why."""
import dataclasses
import pathlib
import re
import tomllib

FILE = pathlib.Path(__file__).with_name("families.toml")
VALID = "valid"
SLOW = "no verdict within seconds"


@dataclasses.dataclass(frozen=True)
class Said:
    """A verdict: where and what, or the text `valid`. SLOW is the crate's if it gives none in time."""
    text: str
    offset: int | None = None

    def is_refusal(self):
        return self.offset is not None

    def shown(self):
        return f"{self.offset:#x} {self.text}" if self.is_refusal() else self.text


def differing(ours, theirs):
    """What differs first: the verdict, the offset or the message; nothing if all is equal."""
    if ours.is_refusal() != theirs.is_refusal():
        return "verdict"
    if ours.offset != theirs.offset:
        return "offset"
    return "message" if ours.text != theirs.text else None


def is_index(whole, at):
    """Whether a number that is not negative begins at a place: a signed LEB128, as an index among types."""
    while at < len(whole) and whole[at] & 0x80:
        at += 1
    return at < len(whole) and whole[at] < 0x40


def lies(words, whole, at):
    """Whether bytes of these ranges lie at a place, as `fb 18-19`; `index` is a number as above."""
    if at is None or at >= len(whole):
        return False
    if words == "index":
        return is_index(whole, at)
    for byte, word in zip(whole[at:], words.split()):
        first, _, last = word.partition("-")
        if not int(first, 16) <= byte <= int(last or first, 16):
            return False
    return True


class Family:
    """A row of the table. A difference is of the first family that fits it."""

    def __init__(self, row):
        self.name, self.reason, self.module = row.pop("name"), row.pop("reason"), bytes.fromhex(row.pop("module"))
        self.differs = row.pop("differs").split()
        self.here, self.there = re.compile(row.pop("here", "")), re.compile(row.pop("there", ""))
        self.at_ours, self.at_theirs, self.further = row.pop("at-ours", ""), row.pop("at-theirs", ""), row.pop("further", None)
        self.features, self.vectors = row.pop("features", "default"), row.pop("vectors", False)
        if row:
            raise ValueError(f"families.toml: {self.name}: {', '.join(row)} is no field")

    def fits(self, what, ours, theirs, whole):
        if what not in self.differs or not self.here.search(ours.text) or not self.there.search(theirs.text):
            return False
        if self.at_ours and not lies(self.at_ours, whole, ours.offset) or self.at_theirs and not lies(self.at_theirs, whole, theirs.offset):
            return False
        return self.further is None or ours.is_refusal() and theirs.is_refusal() and theirs.offset - ours.offset in range(*self.further)


def read():
    return [Family(row) for row in tomllib.loads(FILE.read_text()).get("family", [])]


def family_of(families, what, ours, theirs, whole):
    return next((it for it in families if it.fits(what, ours, theirs, whole)), None)
