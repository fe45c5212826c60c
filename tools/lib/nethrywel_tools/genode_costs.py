"""What objects of sessions cost, by service: a JSON text next to Genode's configuration, which has no such sizes."""
import json
import re
from dataclasses import dataclass

from .genode_config import NAME, Concern, Note
from .genode_xml import Place, WrongText
from .start_list_places import places

# The members of a kind in addition to its name, each with its least value.
LEAST = {"block": 112, "bytes": 0}


@dataclass(frozen=True)
class Kind:
    """A kind of objects of a session: the bytes of an object's heap block, and those of each unit of its contents."""

    kind: str
    block: int
    bytes: int
    is_assumed: bool


def kind_of(value, part: str) -> Kind:
    """Returns a kind of a file of costs. A member that begins with `_` is a comment; `_assumed` marks a size without a source."""
    if not isinstance(value, dict) or not isinstance(value.get("kind"), str) or not re.fullmatch(NAME, value["kind"]):
        raise WrongText(f"{part}: expected an object whose `kind` is a name")
    for name, least in LEAST.items():
        it = value.get(name)
        if type(it) is not int or not least <= it <= 65535:
            raise WrongText(f"{part}: {name}: expected a whole number from {least} to 65535, found {json.dumps(it)[:40]}")
    return Kind(value["kind"], value["block"], value["bytes"], "_assumed" in value)


def unread_in(text: str):
    """Yields a note for each member of a kind that nothing reads, at its value."""
    for path, (begin, _) in places(text).items():
        if len(path) == 3 and not path[0].startswith("_") and path[2] not in ("kind", *LEAST) and not path[2].startswith("_"):
            place = Place(text.count("\n", 0, begin) + 1, begin - text.rfind("\n", 0, begin))
            yield Note(None, place, f"unknown member `{path[2]}` of `{path[0]}[{path[1]}]`", Concern.BUDGETS)


def read_costs(data: bytes) -> tuple[dict[str, list[Kind]], list[Note]]:
    """Reads the kinds of each service, with their notes."""
    try:
        text = data.decode(json.detect_encoding(data))
        found = json.loads(text)
    except json.JSONDecodeError as fault:
        raise WrongText(f"invalid JSON: {fault.msg}", Place(fault.lineno, fault.colno)) from fault
    except UnicodeDecodeError as fault:
        raise WrongText(f"invalid JSON: expected {fault.encoding}, found {fault.reason} at byte {fault.start}") from fault
    except (ValueError, RecursionError) as fault:
        raise WrongText("invalid JSON: expected fewer nested values, and numbers of at most 4300 digits") from fault
    if not isinstance(found, dict):
        raise WrongText("expected an object with a list of kinds for each service")
    kinds = {}
    for service, value in ((it, value) for it, value in found.items() if not it.startswith("_")):
        if not isinstance(value, list) or len(value) > 16:
            raise WrongText(f"{service}: expected a list of at most 16 kinds")
        kinds[service] = [kind_of(it, f"{service}[{at}]") for at, it in enumerate(value)]
        if len({it.kind for it in kinds[service]}) != len(value):
            raise WrongText(f"{service}: expected kinds with different names")
    return kinds, [*unread_in(text)]
