"""Files that are there whole or not at all, and their sums."""
import contextlib
import errno
import hashlib
import os
import stat
import tempfile

from .command_line import Fault, naming

# The largest scenario that a tool reads, and the largest text of another kind: lists, policies, configurations, costs, hosts.
SCENARIO_BYTES, TEXT_BYTES = 64 << 20, 1 << 20
STREAMS = {"/dev/stdout": 1, "/dev/stderr": 2}


def sum_of(data):
    return hashlib.sha256(data).hexdigest()


def shown(path):
    """Returns a path as text, with U+FFFD for each byte that isn't UTF-8."""
    return os.fsencode(path).decode(errors="replace")


def bytes_at(path, most=None):
    """Returns what a file has. No more than one byte beyond the bound is read."""
    with open(path, "rb") as it:
        data = it.read(-1 if most is None else most + 1)
    if most is not None and len(data) > most:
        raise OSError(errno.EFBIG, f"expected at most {most} bytes, found more", path)
    return data


def input_at(path, most=TEXT_BYTES):
    """Returns what a file has that a command line names; a fault of the command line if it can't be read or is too large."""
    try:
        return bytes_at(path, most)
    except OSError as fault:
        raise Fault(f"{path}: {fault.strerror}", 2) from fault


def refuse_inputs(output, *inputs):
    """Refuses an output that is one of the files that are read, by whatever name."""
    for it in filter(None, inputs):
        with contextlib.suppress(OSError):
            if os.path.isfile(output) and os.path.samefile(output, it):
                raise Fault(f"{output}: expected another file than the input {it}", 2)


def mode_of(path):
    """Returns the mode of a file, or the one that a new file gets."""
    try:
        return stat.S_IMODE(os.stat(path).st_mode)
    except FileNotFoundError:
        mask = os.umask(0o077)
        os.umask(mask)
        return 0o666 & ~mask


def write_whole(path, data):
    """Writes a file whole or not at all, with the mode that it had: a new file in its folder takes its name. A device, a pipe and
    an output of the tool itself are written to."""
    stream = STREAMS.get(os.fspath(path))
    if stream or os.path.exists(path) and not os.path.isfile(path):
        with naming(path), open(os.dup(stream) if stream else path, "wb") as it:
            it.write(data)
        return
    path = os.path.realpath(path)
    with naming(path):
        replace_whole(path, data)


def replace_whole(path, data):
    folder = os.path.dirname(path)
    # (exclusive, with a name that nobody knows, and readable by its owner alone)
    number, new = tempfile.mkstemp(prefix=f".{os.path.basename(path)[:200]}.", dir=folder)
    try:
        with open(number, "wb") as it:
            it.write(data)
            it.flush()
            os.fchmod(it.fileno(), mode_of(path))
            os.fsync(it.fileno())
        os.replace(new, path)
    except BaseException:
        os.unlink(new)
        raise
    place = os.open(folder, os.O_RDONLY)
    try:
        os.fsync(place)
    finally:
        os.close(place)
