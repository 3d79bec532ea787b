"""What a failure of the power may leave of a directory, by the calls that tests/lib/disk.c tells."""

import collections
import os

# A disk writes so many bytes whole or not at all.
SECTOR = 512

# A call that was carried out: what it is, when it began in seconds of time.monotonic, its other words, and what it wrote.
Call = collections.namedtuple("Call", "kind moment words data")

# The kinds of calls that change which files a directory has, and by which names.
NAMING = ("create", "rename", "remove")


def calls_of(path):
    """The calls that are told in a file, of names without blanks. One that is cut, as where the process was killed from
    elsewhere, isn't there."""
    with open(path, "rb") as file:
        while (line := file.readline()).endswith(b"\n"):
            kind, moment, *words = line[:-1].decode().split(" ", 2)
            words = words[0].split("/" if kind == "rename" else " ") if words else []
            data = file.read(int(words[2]) + 1)[:-1] if kind == "write" else b""
            if kind == "write" and len(data) < int(words[2]):
                return
            yield Call(kind, int(moment) / 10**9, words, data)


def put(content, offset, data):
    """Writes into a bytearray, with zeros where it was shorter than the offset."""
    content.extend(bytes(max(0, offset - len(content))))
    content[offset : offset + len(data)] = data


def resize(content, size):
    content.extend(bytes(max(0, size - len(content))))
    del content[size:]


def sectors(offset, data):
    """The parts of a write that lie in one sector each, with their offsets."""
    at = 0
    while at < len(data):
        size = SECTOR - (offset + at) % SECTOR
        yield offset + at, data[at : at + size]
        at += size


class File:
    """A file: its bytes as they were handed to the disk, as they are seen, and what was done in between."""

    def __init__(self, content=b""):
        self.kept, self.seen = bytes(content), bytearray(content)
        self.changes, self.sizes = [], [len(self.kept)]

    def change(self, act, number, *data):
        act(self.seen, number, *data)
        self.changes.append((act, number, *data))
        self.sizes.append(len(self.seen))

    def sync(self):
        self.__init__(self.seen)

    def left(self, draw):
        """What may be left of it: any of the sectors that were written, zeros in the place of some, and any of the lengths."""
        if not self.changes:
            return self.kept
        content, share = bytearray(self.kept), draw.choice([0, 0.3, 0.7, 1])
        for act, number, *data in self.changes:
            if act is resize and draw.random() < share:
                resize(content, number)
            for offset, part in sectors(number, data[0]) if act is put else []:
                if draw.random() < share:
                    put(content, offset, part)
                elif draw.random() < 0.3:
                    put(content, offset, bytes(len(part)))
        size = draw.choice([len(content), self.sizes[-1], draw.randint(min(self.sizes), max(self.sizes))])
        resize(content, size)
        return bytes(content)


class Directory:
    """A directory: its files by their names, as these were handed to the disk and as they are seen, and what was done in between."""

    def __init__(self, path):
        self.path, self.kept, self.files, self.steps = path, {}, {}, []
        for name, content in self.found().items():
            number = os.stat(f"{path}/{name}").st_ino
            self.kept[name] = self.files[number] = File(content)
        self.names = dict(self.kept)

    def found(self):
        """The files that stand there: what they hold by their names."""
        found = {}
        for name in os.listdir(self.path):
            with open(f"{self.path}/{name}", "rb") as file:
                found[name] = file.read()
        return found

    def seen(self):
        """The same as the calls have it."""
        return {name: bytes(file.seen) for name, file in self.names.items()}

    def take(self, call):
        """What a call does."""
        if call.kind in NAMING:
            self.name(call)
        elif call.kind == "settle":
            self.kept, self.steps = dict(self.names), []
        elif call.kind == "sync":
            self.files[int(call.words[0])].sync()
        elif call.kind == "write":
            self.files[int(call.words[0])].change(put, int(call.words[1]), call.data)
        elif call.kind == "resize":
            self.files[int(call.words[0])].change(resize, int(call.words[1]))

    def name(self, call):
        file = None
        if call.kind == "create":
            # the number may have been that of a file that is gone
            file = self.files[int(call.words[0])] = File()
        step = (call.kind, call.words, file)
        self.steps.append(step)
        rename(self.names, *step)

    def left(self, draw):
        """The files by the names that a failure of the power may leave: of the steps since the directory was handed to the disk
        any stand, but for those behind one with a name of theirs that doesn't."""
        names, undone, share = dict(self.kept), set(), draw.choice([0, 0.5, 0.8, 1])
        for step in self.steps:
            if undone.isdisjoint(step[1]) and draw.random() < share:
                rename(names, *step)
            else:
                undone.update(step[1])
        return names

    def fail(self, draw):
        """Has the power fail: leaves what may be left, and answers the directory as it is then, with all of it on the disk."""
        left = {name: file.left(draw) for name, file in self.left(draw).items()}
        for name in os.listdir(self.path):
            os.remove(f"{self.path}/{name}")
        for name, content in left.items():
            with open(f"{self.path}/{name}", "xb") as file:
                file.write(content)
        return Directory(self.path)


def rename(names, kind, words, file):
    """What a step does to the files by their names."""
    if kind == "create":
        names[words[1]] = file
    elif kind == "rename":
        names[words[1]] = names.pop(words[0])
    else:
        del names[words[0]]
