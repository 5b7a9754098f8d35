"""Random texts of the four kinds, and changes to them."""
import random

NUMBERS = [b"0", b"1", b"2", b"-1", b"+3", b"007", b"-0", b"4.5", b".5", b"-3.", b".", b"0.0000001", b"1.000000000000000000", b"x", b"", b"1000000000000000000", b"1000000000000000001",
           b"-1000000000000000001", b"9223372036854775807", b"9223372036854775808", b"18446744073709551616", b"512", b"513",
           b"65536", b"65537", b"1048576", b"1048577", b"99999999999999999999999999999999999999999"]
BYTES = b"0123456789 \n\r\t-+.:,#{}abz\x00\x0c\xff"


def matrix(draw, n):
    kind = draw.randrange(6)
    top = draw.choice([1, 3, 20, 10**6, 10**15])
    entry = {
        0: lambda: draw.randrange(top + 1),
        1: lambda: draw.randrange(-top, top + 1),
        2: lambda: draw.choice([0, 0, 0, top]),
        3: lambda: -draw.randrange(top + 1),
        4: lambda: 1,
        5: lambda: draw.randrange(2),
    }[kind]
    return [[entry() for _ in range(n)] for _ in range(n)]


def number(draw, entry, most):
    """An entry with a point somewhere, and at most so many decimals."""
    if most == 0 or draw.random() < 0.3:
        return str(entry)
    behind = draw.randrange(most + 1)
    digits = str(abs(entry)).rjust(behind, "0")
    return ("-" if entry < 0 else draw.choice(["", "", "+"])) + digits[: len(digits) - behind] + "." + digits[len(digits) - behind :]


def lolib(draw, rows):
    n = len(rows)
    most = draw.choice([0, 0, 0, 1, 2, 6, 6, 7])
    gap = lambda: draw.choice([b" ", b" ", b" ", b"\n", b"\t", b"\r\n", b"  "])
    title = draw.choice([b""] * 4 + [b"Belgium 1975\n", b"\n\nx 1 2\n", b"3 sectors\r\n"])
    body = str(n).encode() + draw.choice([b"\n", b" ", b"\r\n"])
    for row in rows:
        for entry in row:
            body += number(draw, entry, most).encode() + gap()
        body += b"\n"
    return title + body + draw.choice([b""] * 3 + [b"x y\n", b"12", b"\n\n"])


def tied(draw, items):
    """The items of an order, some of them in groups."""
    place = 0
    while place < len(items):
        if draw.random() < 0.2:
            end = draw.randrange(place, len(items))
            items[place] = draw.choice([b"{", b"{", b"{ "]) + items[place]
            items[end] = items[end] + draw.choice([b"}", b"}", b" }"])
            place = end
        place += 1
    return items


def preflib(draw, n):
    lines = [b"# FILE NAME: a", b"# NUMBER ALTERNATIVES: %d" % n, b"# NUMBER VOTERS: 3"]
    for i in range(1, n + 1):
        if draw.random() < 0.7:
            lines.append(b"# ALTERNATIVE NAME %d: %s" % (i, draw.choice([b"Soup", b"Rice and beans", b"", b"\xc3\xa9t\xc3\xa9", b" x "])))
    for _ in range(draw.randrange(1, 6)):
        ranked = list(range(1, n + 1))
        draw.shuffle(ranked)
        ranked = tied(draw, [b"%d" % it for it in ranked[: draw.randrange(1, n + 1)]])
        count = draw.choice([1, 2, 7, 10**6, 10**18])
        lines.append(b"%d:%s%s" % (count, draw.choice([b" ", b"", b"\t"]), draw.choice([b",", b", ", b" ,"]).join(ranked)))
    return b"\n".join(lines) + draw.choice([b"\n", b"", b"\r\n"])


def order(draw, n):
    s = list(range(1, n + 1))
    draw.shuffle(s)
    return draw.choice([b" ", b"\n", b"\t"]).join(b"%d" % it for it in s) + b"\n"


def certificate(draw, rows, solved):
    """A certificate of version 1 by hand, with cuts of all kinds; `solved` is an order with its value and a bound."""
    n, (s, value, bound) = len(rows), solved
    cuts = []
    for _ in range(draw.randrange(4)):
        some = list(range(1, n + 1))
        draw.shuffle(some)
        kind = draw.randrange(3)
        if kind == 0 and n >= 3:
            cuts.append(b"dicycle " + b" ".join(b"%d" % it for it in some[:3]))
        elif kind == 1 and n >= 6:
            k = draw.randrange(3, n // 2 + 1)
            cuts.append(b"fence %d " % k + b" ".join(b"%d" % it for it in some[: 2 * min(k, 8)]))
        elif kind == 2 and n >= 4:
            a, b, c, d = some[:4]
            cuts.append(draw.choice([b"ladder 3 3 %d %d %d 3 %d %d %d 3 %d %d %d" % (a, b, c, a, b, d, d, a, c), b"ladder 3 4 %d %d %d %d 3 %d %d %d 3 %d %d %d" % (a, b, c, d, a, c, b, b, d, a)]))
    lines = [b"lopcert 1", b"objects %d" % n, b"order " + b" ".join(b"%d" % (it + 1) for it in s), b"value %d" % value, b"bound %d" % bound, b"cuts %d" % len(cuts)] + cuts

    def tree(depth, path):
        free = [(a, b) for a in range(1, n + 1) for b in range(1, n + 1) if a != b]
        if depth and free and draw.random() < 0.7:
            a, b = draw.choice(free)
            return [b"split %d %d" % (a, b)] + tree(depth - 1, path) + tree(depth - 1, path)
        named = sorted(draw.sample(range(1, len(cuts) + 1), draw.randrange(len(cuts) + 1)))
        scale = draw.choice([1, 1, 2, 65536])
        terms = b"".join(b" %d %d" % (it, draw.choice([1, 2, scale, 2**63 - 1])) for it in named)
        return [b"leaf %d %d" % (scale, len(named)) + terms]

    return b"\n".join(lines + tree(draw.randrange(4), []) + [b"end"]) + b"\n"


def other_version(draw, certificate):
    """The same certificate in the other version: its leaves' records listed, at random each anew or once, or put back."""
    lines = certificate[:-1].split(b"\n")
    front = next(place for place, line in enumerate(lines) if line.startswith(b"cuts ")) + 1
    front += int(lines[front - 1][5:])
    if lines[0] == b"lopcert 2":
        count = int(lines[front][8:])
        records = [line[7:] for line in lines[front + 1 : front + 1 + count]]
        tree = [b"leaf " + records[int(line[5:]) - 1] if line.startswith(b"leaf ") else line for line in lines[front + 1 + count :]]
        return b"\n".join([b"lopcert 1"] + lines[1:front] + tree) + b"\n"
    records, tree, again = [b"1 0"] * draw.choice([0, 0, 1]), [], draw.random() < 0.3
    for line in lines[front:]:
        if line.startswith(b"leaf "):
            if again or line[5:] not in records:
                records.append(line[5:])
            line = b"leaf %d" % (len(records) if again else records.index(line[5:]) + 1)
        tree.append(line)
    listed = [b"records %d" % len(records)] + [b"record " + it for it in records]
    return b"\n".join([b"lopcert 2"] + lines[1:front] + listed + tree) + b"\n"


def changed(draw, data):
    """The text with one to three changes."""
    for _ in range(draw.choice([1, 1, 1, 2, 3])):
        kind = draw.randrange(9)
        at = draw.randrange(len(data) + 1)
        if kind == 0:
            data = data[:at] + bytes([draw.choice(BYTES)]) + data[at:]
        elif kind == 1:
            data = data[:at] + data[at + draw.choice([1, 1, 1, 5]) :]
        elif kind == 2:
            data = data[:at] + bytes([draw.choice(BYTES)]) + data[at + 1 :]
        elif kind == 3:
            data = data[:at]
        else:
            lines = data.split(b"\n")
            here = draw.randrange(len(lines))
            if kind == 4:
                lines.insert(here, lines[draw.randrange(len(lines))])
            elif kind == 5:
                del lines[here]
            elif kind == 6:
                there = draw.randrange(len(lines))
                lines[here], lines[there] = lines[there], lines[here]
            else:
                words = lines[here].split(b" ")
                word = draw.randrange(len(words))
                old = words[word]
                near = b"%d" % (int(old) + draw.choice([-1, 1, -1, 1, 10])) if old.isdigit() and len(old) < 30 else draw.choice(NUMBERS)
                words[word] = near if kind == 7 else draw.choice(NUMBERS + words)
                lines[here] = b" ".join(words)
            data = b"\n".join(lines)
    return data
