# The protocol once more, in plain Python and by hashlib: what an honest planner and asker say. The programs are compared with it.
import hashlib
import struct


def sha256(text):
    return hashlib.sha256(text).digest()


class DrawnOut(Exception):
    pass


class Drawn:
    """Drawn bytes, read from the front."""

    def __init__(self, data):
        self.data, self.at = data, 0

    def take(self, count):
        if self.at + count > len(self.data):
            raise DrawnOut
        self.at += count
        return self.data[self.at - count : self.at]

    def below(self, s):
        limit = 2**32 - 2**32 % s
        while True:
            (value,) = struct.unpack(">I", self.take(4))
            if value < limit:
                return value % s

    def order(self, k):
        row = list(range(k))
        for i in range(k - 1, 0, -1):
            j = self.below(i + 1)
            row[i], row[j] = row[j], row[i]
        return row


class Task:
    def __init__(self, n, k, pairs):
        self.n, self.k, self.pairs = n, k, pairs

    @staticmethod
    def read(data):
        kind, n, k, m = struct.unpack(">BHBH", data[:6])
        assert kind == 1 and len(data) == 6 + 4 * m
        return Task(n, k, [struct.unpack(">HH", data[i : i + 4]) for i in range(6, len(data), 4)])

    def word(self):
        return struct.pack(">BHBH", 1, self.n, self.k, len(self.pairs)) + b"".join(struct.pack(">HH", *p) for p in self.pairs)


def plan_word(plan):
    return struct.pack(">BH", 2, len(plan)) + bytes(plan)


def box(round, train, number, chance):
    return sha256(struct.pack(">IHB", round, train, number) + chance)


def boxes_word(round, numbers, chances):
    digests = b"".join(box(round, t, v, c) for t, (v, c) in enumerate(zip(numbers, chances)))
    return struct.pack(">BIH", 3, round, len(numbers)) + digests


def ask_word(round, pair):
    return struct.pack(">BIH", 4, round, pair)


def opened_word(round, first, second):
    return struct.pack(">BI", 5, round) + b"".join(struct.pack(">HB", t, v) + c for t, v, c in (first, second))


def end_word(round, content):
    return struct.pack(">BIB", 6, round, content)


class Round:
    """The words of a round in which all is well, and what is in its boxes."""

    def __init__(self, task, plan, round, drawn, pair):
        order = drawn.order(task.k)
        self.chances = [drawn.take(32) for _ in range(task.n)]
        self.numbers = [order[path] for path in plan]
        self.boxes = boxes_word(round, self.numbers, self.chances)
        self.ask = ask_word(round, pair)
        self.opened = opened_word(round, *(self.opening(t) for t in task.pairs[pair]))
        self.end = end_word(round, 1)

    def opening(self, train):
        return train, self.numbers[train], self.chances[train]

    def words(self):
        return self.boxes + self.ask + self.opened + self.end


def showing(task, plan, planner_drawn, asker_drawn, rounds):
    """The rounds of an honest showing."""
    planner, asker = Drawn(planner_drawn), Drawn(asker_drawn)
    return [Round(task, plan, i, planner, asker.below(len(task.pairs))) for i in range(rounds)]


def book(task, texts):
    """The digests of the task and of each round, whose words are given."""
    digests = [sha256(task.word())]
    for text in texts:
        digests.append(sha256(digests[-1] + text))
    return digests


def book_text(digests):
    return "".join(f"{name} {digest.hex()}\n" for name, digest in zip(["task", *range(len(digests) - 1)], digests))
