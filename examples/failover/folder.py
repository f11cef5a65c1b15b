"""The folder of a node, and what is written beside it."""
import json
import os
import shutil

from rules import Note

CHUNK = 1 << 20


class Folder:
    """A folder, and beside it what the agent writes down of it: DIR.claims, a note, and DIR.rebuilt, the end from which on it counts."""

    def __init__(self, path):
        self.path, self.log, self.noted, self.rebuilt = path, f"{path}.log", f"{path}.claims", f"{path}.rebuilt"
        os.makedirs(path, exist_ok=True)

    def is_empty(self):
        """Whether it has no database: a layout that was stopped in its middle has none, and `als` begins it again."""
        if not os.path.isdir(self.path) or os.path.exists(os.path.join(self.path, "control.blk")):
            return not os.path.isdir(self.path)
        return all(is_blank(os.path.join(self.path, name)) for name in ("log.blk", "pages.blk"))

    def clear(self):
        """Makes room for a database where there is none."""
        os.makedirs(self.path, exist_ok=True)
        for name in ("log.new", "pages.new", "control.new", "role.new", "role"):
            if os.path.exists(os.path.join(self.path, name)):
                os.remove(os.path.join(self.path, name))

    def note(self):
        """What is written down of it. None: nothing is."""
        if not os.path.exists(self.noted):
            return None
        with open(self.noted, encoding="utf-8") as file:
            words = json.load(file)
        if len(words) == 2:
            # As an older agent wrote it.
            words = [words[0], None, *(words[1].get(name, other) for name, other in (("name", ""), ("claims", []), ("seals", None)))]
        it = Note(*words)
        return it._replace(claims=pairs(it.claims), leader_claims=pairs(it.leader_claims))

    def wanted(self):
        """The end from which on it counts."""
        if not os.path.exists(self.rebuilt):
            return 0
        with open(self.rebuilt, encoding="utf-8") as file:
            return int(file.read())

    def put_aside(self):
        shutil.rmtree(f"{self.path}.parted", ignore_errors=True)
        os.rename(self.path, f"{self.path}.parted")
        os.mkdir(self.path)
        sync(os.path.dirname(self.path))


def is_blank(path):
    """Whether a file is not there, or has no byte but zeros behind a log's header."""
    if not os.path.exists(path):
        return True
    with open(path, "rb") as file:
        file.seek(16)
        return not any(chunk.count(0) < len(chunk) for chunk in iter(lambda: file.read(CHUNK), b""))


def write(path, text):
    """The file has this text, or what it had, whatever ends the agent or the machine."""
    with open(f"{path}.new", "w", encoding="utf-8") as file:
        file.write(text)
        file.flush()
        os.fsync(file.fileno())
    os.rename(f"{path}.new", path)
    sync(os.path.dirname(path))


def sync(path):
    """Names in a folder are what they are, whatever ends the machine."""
    folder = os.open(path, os.O_RDONLY)
    try:
        os.fsync(folder)
    finally:
        os.close(folder)


def pairs(claims):
    return None if claims is None else tuple(map(tuple, claims))
