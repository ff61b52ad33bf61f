"""The bytes of inputs, by what they are made of. Written from docs/FORMATS.md alone."""
import base64
import itertools
from collections.abc import Iterator

from log_parts import (
    bytes_field,
    contents,
    define,
    envelope,
    hash_text,
    import_,
    init,
    key_text,
    number_field,
    sha256,
    text_field,
    yank,
)
from search.genes import LOGS, STATES, Genes, Part
from search.one_hash import PREFIX, crowding_names, thirty_two_bytes, word

# Names that are chosen for their hashes.
HOSTILE = ("one hash", "crowding")

# What a key may do, by the kind of log.
PERMISSIONS = {"package": ["release", "yank"], "operator": ["commit", "defineNamespace", "importNamespace"]}


def crowding(place: int) -> str:
    """The crowding name at a place: twice as many are found where those so far do not reach."""
    return crowding_names(2 ** max(12, (place + 1).bit_length()))[place]


def name(part: Part, place: int) -> str:
    """The name of the part's member at a place."""
    if part.name == "same":
        return word(0, part.length)
    if part.name == "one hash":
        return PREFIX + word(place, 8)
    if part.name == "crowding":
        return crowding(place)
    return word(place if part.name == "fresh" else 26**4 - place % 26**4, max(part.length, 4))


def version(part: Part, place: int) -> str:
    """The version at a place: by its numbers, with a pre-release as long as the names are."""
    number = 0 if part.name == "same" else place if part.name == "fresh" else 10**9 - place
    if part.name in HOSTILE:
        return f"1.0.0-{name(part, place)}"
    return f"{number}.0.0" + (f"-{word(place, part.length)}" if part.length > 8 else "")


def key_id(part: Part, place: int) -> str:
    """The id of the key at a place: a fingerprint, or any text where its names are to have one hash."""
    key = key_text(name(part, place))
    return name(part, place) if part.name in HOSTILE else hash_text(key.encode())


def digest(part: Part, place: int) -> str:
    """The digest of a release's content at a place."""
    if part.name in HOSTILE:
        return "sha256:" + thirty_two_bytes(place).hex()
    content = version(part, place) if part.value == "right" else "the content"
    return hash_text(content.encode())


def entry(kind: str, part: Part, place: int) -> bytes:
    """An entry of a record."""
    known = len(PERMISSIONS[kind])
    permissions = bytes(1 + it % known for it in range(part.count))
    key = "toy:" + base64.b64encode(name(part, place).encode()).decode()
    if part.what == "grant":
        return bytes_field(2, text_field(1, key) + bytes_field(2, permissions))
    if part.what == "revoke":
        return bytes_field(3, text_field(1, key_id(part, place)) + bytes_field(2, permissions))
    if part.what == "release":
        return bytes_field(4, text_field(1, version(part, place)) + text_field(2, digest(part, place)))
    if part.what == "yank":
        return yank(version(part, place))
    if part.what == "define":
        return define(name(part, place))
    if part.what == "import":
        return import_(name(part, place), word(place, part.count))
    if part.what == "pieces":
        return bytes_field(1, b"") * (1 + part.count)
    return number_field(15, 1) * (1 + part.count) if part.what == "unknown" else b""


def record_parts(genes: Genes, kind: str, size: int) -> Iterator[list[bytes]]:
    """The entries of each record, until all records take so many bytes."""
    taken, place, entries = 0, 0, [init("alice")]
    while taken < size:
        entries += (entry(kind, part, place) for part in genes.parts)
        taken += sum(len(it) + 2 for it in entries[-len(genes.parts):])
        place += 1
        if len(entries) >= genes.a_record or taken >= size:
            yield entries
            taken += 250
            entries = []


def records(genes: Genes, kind: str, size: int) -> list[list[bytes]]:
    """The entries of each record, of which the last is refused where the log ends so."""
    made = list(record_parts(genes, kind, size))
    if genes.ending == "refused":
        made[-1].append(yank("1.0.0-never") if kind == "package" else define("No name"))
    return made


def log(genes: Genes, size: int) -> bytes:
    """A log of about so many bytes, whose records alice signs."""
    kind = genes.format.partition(" ")[0]
    before, lines = None, []
    for place, entries in enumerate(records(genes, kind, size // 2)):
        content = contents(before, place, entries, 1 if kind == "operator" else 0)
        before = hash_text(f"WARG-{kind.upper()}-LOG-RECORD-V0:".encode() + content)
        lines.append(envelope("alice", content, kind.upper()).hex())
    return "\n".join(lines).encode() + b"\n"


def repeated(text: str, size: int) -> str:
    """A list of as many of the text as take so many bytes."""
    return "[" + ",".join([text] * max(1, size // (len(text) + 1))) + "]"


def json_value(part: Part, size: int, right: str) -> str:
    """A value of JSON of at most about so many bytes; where it is to be small, one alone."""
    depth = min(120, 1 + part.count)
    if part.value == "right":
        return right
    if part.value == "nested":
        return repeated('[{"":' * (depth // 2) + "0" + "}]" * (depth // 2), size)
    if part.value == "long number":
        return "1" * min(size, 300) if size < 10_000 else "0." + "1" * size
    if part.value == "escapes":
        return '"' + "\\u0000" * max(1, size // 6) + '"'
    short = {"lists": "[]", "objects": "{}", "numbers": "1", "texts": '""', "null": "null", "wrong": "{}"}[part.value]
    return short if size < 100 else repeated(short, size)


def member(kind: str, part: Part, place: int) -> str:
    """A member of one of the maps of a state, as `name:value`."""
    if part.what == "keys":
        return f'"{key_id(part, place)}":' + json_value(part, 0, f'"{key_text(name(part, place))}"')
    if part.what == "permissions":
        held = itertools.islice(itertools.cycle(PERMISSIONS[kind]), part.count)
        return f'"{key_id(part, place)}":' + json_value(part, 0, "[" + ",".join(f'"{it}"' for it in held) + "]")
    if part.what == "namespaces":
        return f'"{name(part, place)}":' + json_value(part, 0, '{"state":"defined"}')
    called, digest = version(part, place), hash_text(b"")
    state = f'{{"status":"released","content":"{digest}"}}'
    right = f'{{"recordId":"{digest}","version":"{called}","by":"{digest}","timestamp":"0.0","state":{state}}}'
    return f'"{called}":' + json_value(part, 0, right)


def members(kind: str, part: Part, size: int) -> str:
    """A map of a state of about so many bytes."""
    if part.value in ("lists", "objects", "texts") and part.count == 0:
        return json_value(part, size, "{}")
    lines: list[str] = []
    taken = 0
    while taken < size:
        lines.append(member(kind, part, len(lines)))
        taken += len(lines[-1]) + 1
    return "{" + ",".join(lines) + "}"


def beside(part: Part, place: int, size: int) -> str:
    """A member that nobody asks for, as `name:value`, or spaces in its place."""
    if part.what == "space":
        return " " * size + f'"s{place}":0'
    return f'"{name(part, place)}x":' + json_value(part, size, repeated("0", size))


def state(genes: Genes, size: int) -> bytes:
    """A saved state of about so many bytes."""
    kind, share = genes.format.partition(" ")[0], size // len(genes.parts)
    head = f'"head":{{"digest":"{hash_text(b"")}","timestamp":"0.0"}}'
    said = ['"algorithm":"sha256"', head]
    for place, part in enumerate(genes.parts):
        is_map = part.what not in ("unknown", "space")
        said.append(f'"{part.what}":{members(kind, part, share)}' if is_map else beside(part, place, share))
    return ("{" + ",".join(said) + "}").encode()


def checkpoint(genes: Genes, size: int) -> bytes:
    """A checkpoint of about so many bytes."""
    root, share = hash_text(b""), size // len(genes.parts)
    said = [f'"logLength":0,"logRoot":"{root}","mapRoot":"{root}"']
    said += (beside(part, place, share) for place, part in enumerate(genes.parts))
    return ("{" + ",".join(said) + "}").encode()


def line(genes: Genes, part: Part, place: int) -> str:
    """A line of leaves or of claims."""
    said = name(part, place)
    if part.what == "comment":
        return "#" + said
    if genes.format == "leaves":
        return f"{hash_text(said.encode())} {hash_text(bytes([part.count % 256]))}"
    message = bytes(part.count).hex()
    return f"{key_text(said)} {message} toy:{base64.b64encode(sha256(said.encode())).decode()}"


def text(genes: Genes, size: int) -> bytes:
    """Lines of leaves or of claims, or the text of a proof, of about so many bytes."""
    lines: list[str] = []
    taken = 0
    while taken < size:
        part = genes.parts[len(lines) % len(genes.parts)]
        if genes.format == "proof":
            lines.append("A" * 4000 if part.what == "path" else "\n" * 4000)
        else:
            lines.append(line(genes, part, len(lines)) + "\n")
        taken += len(lines[-1])
    return "".join(lines).encode()


def made(genes: Genes, size: int) -> bytes:
    """The input of about so many bytes, and of no more."""
    if genes.format in LOGS:
        maker = log
    elif genes.format in STATES:
        maker = state
    else:
        maker = checkpoint if genes.format == "checkpoint" else text
    asked = size - size // 64
    result = maker(genes, asked)
    while len(result) > size and asked > size // 16:
        asked = asked * size // (len(result) + size // 64)
        result = maker(genes, asked)
    return result
