"""XML with the place of each element. Hostile XML is refused: a document type with its entities, depth and size."""
import io
from dataclasses import dataclass, field
from typing import NamedTuple
from xml.sax import SAXParseException
from xml.sax.handler import ContentHandler

from .command_line import Fault

MOST_ELEMENTS, MOST_DEPTH = 10_000, 64


class Place(NamedTuple):
    """A line and a column of a text, each from 1 on."""

    line: int
    column: int


class WrongText(Fault):
    """Why a text can't be read, and where."""

    def __init__(self, why, place=None):
        super().__init__(why, 2)
        self.place = place


@dataclass
class Element:
    """An element with its attributes and the elements in it."""

    name: str
    attributes: dict[str, str]
    place: Place
    children: list["Element"] = field(default_factory=list)

    def all(self, *path: str) -> list["Element"]:
        """Returns the elements at the end of a path of names."""
        found = [it for it in self.children if it.name == path[0]]
        return [inner for it in found for inner in it.all(*path[1:])] if path[1:] else found

    def first(self, name: str) -> "Element | None":
        return next(iter(self.all(name)), None)

    def text(self, name: str) -> str:
        """Returns an attribute that has to be there."""
        if name not in self.attributes:
            raise WrongText(f"missing attribute; expected `{name}` of `<{self.name}>`", self.place)
        return self.attributes[name]


class Builder(ContentHandler):
    """Makes a tree of what a parser finds."""

    def __init__(self, parser):
        super().__init__()
        self.parser, self.root, self.open, self.count = parser, None, [], 0

    def place(self) -> Place:
        return Place(self.parser.getLineNumber() or 1, (self.parser.getColumnNumber() or 0) + 1)

    def startElement(self, name, attrs):
        made = Element(name, dict(attrs.items()), self.place())
        for what, count, most in (("nested elements", len(self.open), MOST_DEPTH), ("elements", self.count, MOST_ELEMENTS)):
            if count == most:
                raise WrongText(f"expected at most {most} {what}, found more", made.place)
        self.count += 1
        if self.open:
            self.open[-1].children.append(made)
        self.root = self.root or made
        self.open.append(made)

    def endElement(self, name):
        self.open.pop()


def parse(data: bytes) -> Element:
    """Returns the outermost element of a text. Over 10,000 elements are refused, and so are over 64 nested ones, a document type,
    an encoding that the parser doesn't have, and XML that isn't well-formed."""
    from defusedxml.common import DefusedXmlException
    from defusedxml.sax import make_parser

    parser = make_parser()
    parser.forbid_dtd, builder = True, Builder(parser)
    parser.setContentHandler(builder)
    try:
        parser.parse(io.BytesIO(data))
    except DefusedXmlException as fault:
        raise WrongText("expected no document type and no entities, found some", builder.place()) from fault
    except SAXParseException as fault:
        raise WrongText(f"invalid XML: {fault.getMessage()}", builder.place()) from fault
    except (LookupError, ValueError) as fault:
        raise WrongText(f"invalid XML: {fault}", builder.place()) from fault
    return builder.root
