"""Files that tools write: whole or not at all, not over what another program wrote, and by one desk at a time."""
import os
import stat
import threading
from concurrent.futures import ThreadPoolExecutor

import pytest
from nethrywel_tools import files, saved_files


def test_whole(tmp_path, monkeypatch):
    """A file keeps its mode, is new to who has it open, and isn't changed by a write that fails."""
    path = tmp_path / "file"
    path.write_bytes(b"old")
    path.chmod(0o640)
    with open(path, "rb") as before:
        files.write_whole(path, b"new")
        assert before.read() == b"old" and path.read_bytes() == b"new" and stat.S_IMODE(path.stat().st_mode) == 0o640
    modes = []

    def replace(new, old):
        modes.append(stat.S_IMODE(os.stat(new).st_mode))
        raise OSError(28, "No space left on device")

    monkeypatch.setattr(os, "replace", replace)
    with pytest.raises(OSError):
        files.write_whole(path, b"newer")
    assert path.read_bytes() == b"new" and os.listdir(tmp_path) == ["file"] and modes == [0o640]
    with pytest.raises(FileNotFoundError, match=f"'{tmp_path}/none/file'"):
        files.write_whole(tmp_path / "none/file", b"new")


def test_exclusive(tmp_path, monkeypatch):
    """The new file is created for its owner alone, and never opened if something has its name already."""
    made = []
    real = os.open

    def opened(path, flags, mode=0o777, **named):
        made.append((str(path), flags, mode))
        return real(path, flags, mode, **named)

    monkeypatch.setattr(os, "open", opened)
    files.write_whole(tmp_path / "file", b"text")
    flags, mode = next(it[1:] for it in made if it[0].startswith(f"{tmp_path}/.file."))
    assert flags & os.O_EXCL and flags & os.O_CREAT and flags & os.O_NOFOLLOW and mode == 0o600


def test_one_desk_at_a_time(tmp_path, monkeypatch):
    """Of two desks that save over the same text at once, one saves and the other reports the change."""
    (tmp_path / "file").write_bytes(b"old\n")
    desks = [saved_files.Files({"scenario": tmp_path / "file"}) for _ in range(2)]
    sums, both = desks[0].read()[1], threading.Barrier(2)
    real = saved_files.write_whole

    def slow(path, data):
        threading.Event().wait(0.2)
        real(path, data)

    monkeypatch.setattr(saved_files, "write_whole", slow)

    def save(desk, text):
        both.wait()
        try:
            desk.save({"scenario": text}, sums)
            return text
        except saved_files.Changed:
            return None

    with ThreadPoolExecutor() as pool:
        (saved,) = filter(None, pool.map(save, desks, ("one\n", "two\n")))
    assert (tmp_path / "file").read_text() == saved
