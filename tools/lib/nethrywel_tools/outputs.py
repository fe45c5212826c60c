"""What nethrywel prints with --json. Nothing is computed again here. docs/reference/output.md has what each field is."""
import json

ACCOUNT = ("ram_used", "ram_limit", "caps_used", "caps_limit")
# The fields of calls, accounts, intervals, session requests and diagnostics that the tools read.
FIELDS = {*ACCOUNT, *(f"session_{it}" for it in ACCOUNT), *"""line component call reply session ram_from ram_below
caps_from count kind name binary server label ram_need ram_peak caps_need caps_peak ram caps service to by file column part
text""".split()}


class Document(dict):
    """An object that is printed, with its fields as attributes; one that it doesn't have is None."""

    def __getattr__(self, name):
        if name not in FIELDS:
            raise AttributeError(name)
        return self.get(name)

    @property
    def is_refused(self):
        """Returns whether the reply of a call, a row of `trace`, is a refusal."""
        return self.reply.startswith("ERR ") or self.reply[:1].isupper() and self.reply[1:2].islower()

    @property
    def account(self):
        return tuple(map(self.get, ACCOUNT))

    @property
    def session_account(self):
        return tuple(self.get(f"session_{it}") for it in ACCOUNT)

    def suffices(self, ram, caps):
        """Returns whether a budget is in an interval, a row of `least`."""
        return self.ram_from <= ram and (self.ram_below is None or ram < self.ram_below) and self.caps_from <= caps


def document(text):
    return json.loads(text, object_hook=Document)


def documents_in(text, *kinds):
    """Reads a list of objects, those of these kinds if any is given; a command that failed has printed none."""
    return [it for it in document(text or "[]") if not kinds or it.kind in kinds]


def calls_in(lines):
    """Reads the rows of `trace`, one object a line."""
    return (document(it) for it in lines if it.strip())


def diagnostics_in(text):
    """Reads diagnostics, one object a line; three kinds of failure are text in any case."""
    return [document(it) if it.startswith("{") else Document(text=it) for it in text.split("\n") if it]
