"""The files that the desk edits: reads them, and saves them only over what was read, unless the user decides otherwise."""
import contextlib
import fcntl
import os
import re

from .files import SCENARIO_BYTES, TEXT_BYTES, bytes_at, sum_of, write_whole

MOST = {"list": TEXT_BYTES, "policy": TEXT_BYTES, "scenario": SCENARIO_BYTES}
END = re.compile(r"\r\n?|\n")


class Changed(Exception):
    """Files that have another text than the one that was read: their paths, and the sums of all files as they are."""

    def __init__(self, paths, sums):
        super().__init__(f"changed on disk since it was read here: {' and '.join(paths)}")
        self.sums = sums


def with_ends_of(old, new):
    """Returns the new text with the line ends of the old one: lines before and after the edited ones have their own, others the
    first line's."""
    old_lines, old_ends, lines = END.split(old), END.findall(old), END.split(new)
    usual = (old_ends or ["\n"])[0]
    ends = [usual] * (len(lines) - 1)
    front = min(len(os.path.commonprefix([old_lines, lines])), len(ends), len(old_ends))
    ends[:front] = old_ends[:front]
    back = min(len(os.path.commonprefix([old_lines[::-1], lines[::-1]])), len(ends) - front, len(old_ends) - front)
    ends[len(ends) - back :] = old_ends[len(old_ends) - back :]
    text = "".join(map("".join, zip(lines, [*ends, ""])))
    # (an end of CR before an empty line would be one with the next end)
    return text if END.split(text) == lines else usual.join(lines)


def bytes_of(path, name):
    """Returns what a file has of the text of a name, or None if there is none."""
    with contextlib.suppress(FileNotFoundError):
        return bytes_at(path, MOST[name])


def sum_or_none(data):
    return "" if data is None else sum_of(data)


@contextlib.contextmanager
def locked(folders):
    """Keeps other requests and other desks from saving into the folders."""
    with contextlib.ExitStack() as ends:
        for folder in sorted(folders):
            number = os.open(folder, os.O_RDONLY)
            ends.callback(os.close, number)
            fcntl.flock(number, fcntl.LOCK_EX)
        yield


class Files:
    """The files of a desk, by the names of their texts."""

    def __init__(self, paths):
        self.paths = {name: os.path.realpath(path) for name, path in paths.items() if path}

    def read(self):
        """Returns the texts of the files, and the sums of those that can be saved; one that isn't UTF-8 would be another
        afterwards."""
        found = {name: bytes_of(path, name) or b"" for name, path in self.paths.items()}
        texts = {name: data.decode(errors="replace") for name, data in found.items()}
        return texts, {name: sum_of(data) for name, data in found.items() if texts[name].encode() == data}

    def save(self, texts, sums):
        """Saves each file whose sum is given, or none of them, and returns their sums. A file that has another sum and another
        text than the new one was changed by somebody else."""
        with locked({os.path.dirname(self.paths[name]) for name in sums}):
            now = {name: bytes_of(self.paths[name], name) for name in sums}
            old = {name: (data or b"").decode(errors="replace") for name, data in now.items()}
            new = {name: with_ends_of(old[name], texts[name]).encode(errors="replace") for name in sums}
            other = [name for name in sums if now[name] != new[name]]
            changed = [self.paths[name] for name in other if sum_or_none(now[name]) != sums[name]]
            if changed:
                raise Changed(changed, {name: sum_or_none(data) for name, data in now.items()})
            for name in other:
                write_whole(self.paths[name], new[name])
            return {name: sum_of(data) for name, data in new.items()}
