#!/usr/bin/env python3
"""Writes the cases of this crate: `stdin`, and `stdout` by an implementation of the feed format that shares
nothing with the library. Run it in the crate's folder."""
import random
import re

HEADER = [("stops", 24), ("states", 4), ("inputs", 3)]
KEYS = ["train", "stop", "weight", "late", "move", "aim"]


class Refused(Exception):
    pass


def whole(text, low, high):
    if not re.fullmatch(rb"0|-?[1-9][0-9]*", text):
        return None
    n = int(text)
    return n if low <= n <= high else None


def factors(text, count):
    parts = text.split(b",")
    values = [whole(p, -99, 99) for p in parts]
    return None if len(parts) != count or None in values else tuple(values)


class Feed:
    def __init__(self, data):
        self.data, self.at, self.line = data, 0, 0

    def value(self, key):
        self.line += 1
        end = self.data.find(b"\n", self.at)
        if end < 0:
            raise Refused(f"refused 92 line {self.line}")
        name, equals, value = self.data[self.at:end].partition(b"=")
        if not equals or name != key.encode():
            raise Refused(f"refused 92 line {self.line}")
        self.at = end + 1
        return value

    def check(self, value):
        if value is None:
            raise Refused(f"refused 93 line {self.line}")
        return value


def read(book, data):
    """The answer, and the book after it: (sizes or None, list of (stop, label, values))."""
    sizes, trains = book
    if len(data) > 8192:
        return "refused 91", book
    try:
        feed, got = Feed(data), []
        for i, (key, most) in enumerate(HEADER):
            got.append(feed.check(whole(feed.value(key), 1, most)))
            if sizes is not None and sizes[i] != got[i]:
                raise Refused(f"refused 94 line {feed.line}")
        stops, states, inputs = got
        after = list(trains)
        while feed.at < len(data):
            label = feed.value("train")
            feed.check(label if re.fullmatch(rb"[A-Z0-9]{1,8}", label) else None)
            stop = feed.check(whole(feed.value("stop"), 0, stops))
            weight = feed.check(whole(feed.value("weight"), 1, 999))
            late = feed.check(factors(feed.value("late"), states))
            move = feed.check(factors(feed.value("move"), inputs))
            if stop == stops and any(move):
                feed.check(None)
            aim = feed.check(whole(feed.value("aim"), -999, 999))
            same = [k for k, t in enumerate(after) if t[0] == stop and t[1] == label]
            values = (weight, late, move, aim)
            if same and after[same[0]][2] != values:
                raise Refused(f"refused 95 line {feed.line} slot {same[0]}")
            if not same:
                if len(after) == 64:
                    raise Refused(f"refused 96 line {feed.line}")
                after.append((stop, label, values))
        return f"new {len(after) - len(trains)}", (tuple(got) if after else None, after)
    except Refused as r:
        return str(r), book


def escape(data):
    return "".join("\\n" if b == 10 else "\\r" if b == 13 else "\\t" if b == 9 else "\\\\" if b == 92
                   else chr(b) if 32 <= b < 127 else f"\\x{b:02x}" for b in data)


def block(label="A", stop="0", weight="1", late="0", move="0", aim="0"):
    return f"train={label}\nstop={stop}\nweight={weight}\nlate={late}\nmove={move}\naim={aim}\n".encode("latin-1")


def header(stops="2", states="1", inputs="1"):
    return f"stops={stops}\nstates={states}\ninputs={inputs}\n".encode("latin-1")


def cases():
    """Lists of feeds, each list for a book of its own; a pair (stop, label) asks where a train stands."""
    h = header()
    yield [h, b"", b"\n", h[:-1], h[:3], b"stops=2\nstates=1\n"]
    for bad in ["0", "25", "-1", "+2", "02", "2 ", " 2", "", "2\r", "x", "9" * 40, "-0", "2=", "1e1"]:
        yield [header(stops=bad)]
    yield [header(states="0"), header(states="5"), header(states="4"), header(inputs="0"), header(inputs="4"), header(inputs="3")]
    yield [header(stops="1"), header(stops="24")]
    yield [b"Stops=2\nstates=1\ninputs=1\n", b"stops =2\nstates=1\ninputs=1\n", b"states=1\nstops=2\ninputs=1\n", b"stops2\n"]
    for bad in ["", "ABCDEFGHI", "a", "A B", "A-1", "\xc4", "A=", "A,B", "A\t"]:
        yield [h + block(label=bad)]
    yield [h + block(label="ABCDEFGH"), (0, "ABCDEFGH"), (0, "ABCDEFG"), (0, "ABCDEFGHI"), (1, "ABCDEFGH"), (0, "abcdefgh"), (99999999999, "ABCDEFGH")]
    for bad in ["3", "-1", "+1", "007", "-0", "", "1,1", "18446744073709551617"]:
        yield [h + block(stop=bad)]
    for good in ["0", "1", "2"]:
        yield [h + block(stop=good)]
    for bad in ["0", "1000", "-5", "+7", "007", "", "99999999999999999999"]:
        yield [h + block(weight=bad)]
    yield [h + block(weight="999")]
    for bad in ["100", "-100", "", "1,1", "+1", "01", "-0", "--1", "1,", ",1", "1;1", "-"]:
        yield [h + block(late=bad), h + block(move=bad)]
    yield [h + block(late="99", move="-99"), h + block(label="B", late="-99", move="99")]
    for bad in ["1000", "-1000", "-0", "+3", "0x1", "", "1.5", "-", "1" * 40]:
        yield [h + block(aim=bad)]
    yield [h + block(aim="999"), h + block(label="B", aim="-999")]
    yield [h + block(stop="2", move="1"), h + block(stop="2", move="0"), h + block(stop="1", move="1")]
    w = header("3", "4", "3")
    yield [w + block(late="1,-2,3,-4", move="5,-6,7"), w + block(label="B", late="1,2,3"), w + block(label="B", late="1,2,3,4,5"),
           w + block(label="B", late="1,2,3,4", move="1,2"), w + block(label="B", late="1,2,3,4", move="0,0,0,0"), w + block(stop="3", late="0,0,0,0", move="0,0,1")]
    a = block(stop="1", weight="3", late="1", aim="2")
    yield [h + a, h + a, h + a + a, (1, "A"), (0, "A")]
    for other in [dict(weight="4"), dict(late="2"), dict(move="1"), dict(aim="3")]:
        v = dict(stop="1", weight="3", late="1", aim="2")
        v.update(other)
        yield [h + a, h + block(label="B") + block(**v) + block(label="C"), (0, "B"), h + block(label="B", stop="1")]
    yield [h + a, header(stops="3") + a, header(states="2"), header(inputs="2"), h]
    yield [h + a + a[:-1], h + a + a[:20], h + a + b"train=B\nweight=3\n", h + a + b"\n", h + a.replace(b"\n", b"\r\n")]
    many = b"".join(block(label=f"T{k}", stop=str(k % 3)) for k in range(64))
    yield [h + many, h + block(label="X"), h + block(label="T5", stop="2"), h + block(label="T5", stop="2", weight="9"), (2, "T5"), (1, "T5")]
    yield [h + many + block(label="X")]
    yield [h + block(label="X"), h + many, h + many[:-len(block(label="T63", stop="0"))]]
    yield [fit(h, 8192), fit(h, 8193)]
    rng = random.Random(20261117)
    for _ in range(120):
        yield [noise(rng) for _ in range(3)]


def fit(h, size):
    """A good feed of exactly `size` bytes: repeats of one train, and one train whose values make up the rest."""
    one = block(label="A", stop="1", weight="100", aim="100")
    for n in range(size // len(one), 0, -1):
        body = h + one * n
        for label in range(1, 9):
            for weight in ["1", "10", "100"]:
                for aim in ["0", "10", "100", "-100"]:
                    feed = body + block(label="B" * label, weight=weight, aim=aim)
                    if len(feed) == size:
                        return feed
    raise SystemExit("no feed of that size")


def noise(rng):
    """A good feed, often with one byte changed, dropped or doubled."""
    states, inputs, stops = rng.randint(1, 2), rng.randint(1, 2), rng.randint(1, 3)
    feed = header(str(stops), str(states), str(inputs))
    for _ in range(rng.randint(0, 4)):
        stop = rng.randint(0, stops)
        move = ",".join("0" if stop == stops else str(rng.randint(-9, 9)) for _ in range(inputs))
        late = ",".join(str(rng.randint(-9, 9)) for _ in range(states))
        feed += block(rng.choice("AB"), str(stop), str(rng.randint(1, 3)), late, move, str(rng.randint(-9, 9)))
    at, what = rng.randrange(len(feed)), rng.random()
    if what < 0.2:
        return feed[:at] + bytes([rng.choice(b"09-+=,\n A\r\xff")]) + feed[at + 1:]
    if what < 0.3:
        return feed[:at] + feed[at + 1:]
    if what < 0.4:
        return feed[:at] + feed[at:at + 1] + feed[at:]
    return feed


def main():
    asked, told = [], []
    for feeds in cases():
        book = (None, [])
        asked.append("new")
        told.append("new")
        for feed in feeds:
            if isinstance(feed, tuple):
                stop, label = feed
                slots = [k for k, t in enumerate(book[1]) if t[0] == stop and t[1] == label.encode()]
                asked.append(f"find {stop} {label}")
                told.append(f"slot {slots[0]}" if slots else "none")
                continue
            answer, book = read(book, feed)
            asked.append(f"read {escape(feed)}")
            told += [answer, f"trains {len(book[1])}"]
    with open("stdin", "w") as f:
        f.write("\n".join(asked) + "\n")
    with open("stdout", "w") as f:
        f.write("\n".join(told) + "\n")


main()
