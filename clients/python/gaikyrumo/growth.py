"""How far the live side of a store has grown, which tells when a checkpoint is due (docs/FORMAT.md has its bytes)."""
import os

MEGABYTE = 1_000_000


class Growth:
    """The growth of a store since its last checkpoint. Its files are read only behind a commit, while the program waits."""

    def __init__(self, store):
        self.sides = [str(store) + '.a', str(store) + '.b']
        self.front = b''
        self.written = self.gate = 0

    def is_due(self):
        """Whether the live side is twice what the last checkpoint wrote and a megabyte more."""
        front, path = self.live()
        with open(path, 'rb') as file:
            if front != self.front:
                self.front = front
                self.written = self.gate = world_end(file)
            self.gate = last_gate(file, self.gate)
        return self.gate > 2 * self.written + MEGABYTE

    def put_off(self):
        """Counts from here on, as if a checkpoint had been made: for one that wasn't, so that the next is not asked at once."""
        self.written = self.gate

    def live(self):
        """Of the sides whose gate is open, the one of the greater generation: how it begins, and its file."""
        fronts = []
        for path in self.sides:
            with open(path, 'rb') as file:
                fronts.append((file.read(10), path))
        return max(fronts)


def number(file, size):
    """The number that the next bytes of a file are, so many of them, the highest first."""
    return int.from_bytes(file.read(size), 'big')


def world_end(file):
    """Where the world of a side ends: behind its gate, format, generation, grid, names and length."""
    file.seek(14)
    for _ in range(number(file, 4)):
        file.seek(number(file, 4), os.SEEK_CUR)
    length = number(file, 8)
    return file.tell() + length


def last_gate(file, gate):
    """Where the closed gate stands, behind the frames from this gate on."""
    file.seek(gate)
    while file.read(1) == b'\x01':
        gate += 5 + number(file, 4)
        file.seek(gate)
    return gate
