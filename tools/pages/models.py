"""The types of the code, as the definitions see them: their cases and fields, or what their values are seen as."""
import re

from . import items
from .items import Item
from .names import Names, names_of
from .specs import Place, ghost_scope


def model_of(place: Place) -> Item | None:
    """The impl that says what values of the type are seen as, if it has one of its own."""
    pattern = re.compile(rf"(<.*> )?Model for {place.name}\b")
    return next((it for it in items.items_of(place.module) if it.kind == "impl" and pattern.match(it.name)), None)


def value_of(place: Place) -> tuple[str, Names] | None:
    """What the values of the type are seen as, and what that names; None where they are as the type is written."""
    model = model_of(place)
    if model is None:
        return None
    members = items.members_of(model)
    value = next(it for it in members if it.kind == "ghost" and it.name == "Value")
    text = items.ghost_text(value)
    scope = ghost_scope([*items.items_of(place.module), *members])
    return text, names_of(scope, text)


def item_of(place: Place) -> Item:
    found = (it for it in items.items_of(place.module) if it.name == place.name)
    return next(it for it in found if it.kind in ("struct", "enum", "type"))


def body_of(place: Place) -> str:
    """A type's lines without its attributes and comments, joined."""
    return " ".join(line.strip() for line in item_of(place).lines if not re.match(r"\s*(#\[|//)", line))


def cases_of(place: Place) -> list[str]:
    """The cases of an enum."""
    if item_of(place).kind != "enum":
        return []
    text = body_of(place).partition("{")[2]
    while (less := re.sub(r"\([^()]*\)|\{[^{}]*\}|<[^<>]*>", "", text)) != text:
        text = less
    return re.findall(r"\w+", text)


def rust_parts(place: Place) -> dict[str, Place]:
    """The types that the fields or the cases of a type name, or what its values are seen as."""
    value = value_of(place)
    if value is not None:
        return value[1].found
    found = {}
    text = body_of(place).partition(place.name)[2]
    if item_of(place).kind == "enum":
        text = " ".join(" ".join(it) for it in re.findall(r"\(([^()]*)\)|\w \{([^{}]*)\}", text))
    for path in re.findall(r"[\w:]*[A-Z]\w*", text):
        it = items.resolve(place.module, path.split("::"))
        if isinstance(it, items.Item) and it.name != place.name:
            found[path] = Place("rust", it.file, it.name)
    return found
