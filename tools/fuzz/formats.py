"""What the program's texts mean, written from docs/FORMATS.md alone: readers, a checker, and the lines of answers.

Nothing here is shared with the program, and nothing is fast: a chain of fixed pairs is looked for by walking.
"""

LIMIT = 10**18
MOST_BYTES = 2**26


class Refused(Exception):
    """A text is refused: the line that is printed."""


def words_of(data):
    """The words of a text with their places: longest runs of bytes that are no separators."""
    found, start = [], None
    for at, byte in enumerate(data + b"\n"):
        if byte in (32, 9, 13, 10):
            if start is not None:
                found.append((start, data[start:at]))
                start = None
        elif start is None:
            start = at
    return found


def is_whole(word):
    digits = word[1:] if word[:1] in (b"+", b"-") else word
    return len(digits) > 0 and all(48 <= it <= 57 for it in digits)


def number_of(word):
    """The whole number that a decimal number's digits give without the point, and its decimals, or None."""
    front, _, behind = (word[1:] if word[:1] in (b"+", b"-") else word).partition(b".")
    if not is_digits(front + behind):
        return None
    return int(front + behind) * (-1 if word[:1] == b"-" else 1), len(behind)


def read_lolib(data):
    """The rows of a LOLIB text in units of 10^-k, and k."""
    end, words = 0, []
    for line in data.split(b"\n"):
        here = [(end + at, word) for at, word in words_of(line)]
        end += len(line) + 1
        if here:
            if all(number_of(word) for _, word in here):
                end -= len(line) + 1
            words = [(end + at, word) for at, word in words_of(data[end:])]
            break
    if not words:
        raise Refused("empty")
    place, size = words[0]
    if not is_whole(size) or abs(int(size)) > LIMIT:
        raise Refused(f"bad-size {place}")
    n = int(size)
    if not 1 <= n <= 512:
        raise Refused(f"size-range {n}")
    entries = []
    for index, (_, word) in enumerate(words[1 : 1 + n * n]):
        found = number_of(word)
        if found is None:
            raise Refused(f"bad-entry {index}")
        if found[1] > 6:
            raise Refused(f"too-fine {index}")
        if abs(found[0]) > LIMIT:
            raise Refused(f"too-wide {index}")
        entries.append(found)
    if len(entries) < n * n:
        raise Refused(f"short {len(entries)}")
    k = max(decimals for _, decimals in entries)
    units = [digits * 10 ** (k - decimals) for digits, decimals in entries]
    for index, number in enumerate(units):
        if abs(number) > LIMIT:
            raise Refused(f"too-wide {index}")
    rows = [units[i * n : i * n + n] for i in range(n)]
    heavy(sum(abs(rows[i][j]) for i in range(n) for j in range(n) if i != j))
    return rows, k


def heavy(total):
    if total > LIMIT:
        raise Refused(f"too-heavy {total}")


def trimmed(text):
    return text.strip(b" \t")


def is_digits(word):
    return len(word) > 0 and all(48 <= it <= 57 for it in word)


class Profile:
    def __init__(self, n, names, orders):
        self.n, self.names, self.orders = n, names, orders

    def rows(self):
        rows = [[0] * self.n for _ in range(self.n)]
        for count, groups in self.orders:
            for place, group in enumerate(groups):
                for before in group:
                    for after in sum(groups[place + 1 :], []):
                        rows[before][after] += count
        heavy(sum(map(sum, rows)))
        return rows

    def voters(self):
        return sum(count for count, _ in self.orders)


def read_preflib(data):
    """The profile of a PrefLib text."""
    lines = data.split(b"\n")
    if lines[-1] == b"":
        lines.pop()
    lines = [line[:-1] if line.endswith(b"\r") else line for line in lines]
    n, names, orders, total = None, {}, [], 0
    for number, line in enumerate(lines, 1):
        if line.startswith(b"#"):
            text = trimmed(line[1:])
            if text.startswith(b"NUMBER ALTERNATIVES:"):
                if n is None:
                    word = trimmed(text[len(b"NUMBER ALTERNATIVES:") :])
                    if not is_digits(word) or not 1 <= int(word) <= 512:
                        raise Refused(f"size-range line {number}")
                    n = int(word)
            elif text.startswith(b"ALTERNATIVE NAME "):
                word, colon, name = text[len(b"ALTERNATIVE NAME ") :].partition(b":")
                if colon and is_digits(word):
                    names.setdefault(int(word), trimmed(name))
            continue
        if trimmed(line) == b"":
            continue
        orders.append(order_line(trimmed(line), n, number))
        total += orders[-1][0]
        if total > LIMIT:
            raise Refused(f"too-many line {number}")
    if n is None:
        raise Refused(f"no-size line {len(lines)}")
    if not orders:
        raise Refused("no-orders")
    return Profile(n, [names.get(i + 1, b"") for i in range(n)], orders)


def order_line(line, n, number):
    if n is None:
        raise Refused(f"no-size line {number}")
    count, colon, items = line.partition(b":")
    if not colon:
        raise Refused(f"bad-line line {number}")
    count = trimmed(count)
    if not is_digits(count) or not 1 <= int(count) <= LIMIT:
        raise Refused(f"bad-count line {number}")
    grouped = []
    for item in items.split(b","):
        item = trimmed(item)
        opens = item.startswith(b"{")
        item = item[1:] if opens else item
        closes = item.endswith(b"}")
        grouped.append((opens, trimmed(item[:-1] if closes else item), closes))
    is_open = False
    for opens, item, closes in grouped:
        if opens and is_open or closes and not (opens or is_open) or b"{" in item or b"}" in item:
            raise Refused(f"ties line {number}")
        is_open = (is_open or opens) and not closes
    if is_open:
        raise Refused(f"ties line {number}")
    ranked, groups = [], []
    for opens, item, closes in grouped:
        if not is_digits(item) or not 1 <= int(item) <= n:
            raise Refused(f"bad-alternative line {number}")
        if int(item) - 1 in ranked:
            raise Refused(f"repeated line {number}")
        ranked.append(int(item) - 1)
        if opens or not is_open:
            groups.append([])
        groups[-1].append(ranked[-1])
        is_open = (is_open or opens) and not closes
    return int(count), groups


def read_input(format, data):
    """The rows, the profile where there is one, and k: the rows are in units of 10^-k."""
    if len(data) > MOST_BYTES:
        raise Refused("too-long")
    if format == "lolib":
        rows, k = read_lolib(data)
        return rows, None, k
    profile = read_preflib(data)
    return profile.rows(), profile, 0


def read_order(data, n):
    if len(data) > MOST_BYTES:
        raise Refused("too-long")
    words = [word for _, word in words_of(data)]
    for place, word in enumerate(words):
        if not is_whole(word) or abs(int(word)) > LIMIT:
            raise Refused(f"order-word {place}")
    if len(words) != n:
        raise Refused(f"order-length {len(words)}")
    order = []
    for place, word in enumerate(words):
        if not 1 <= int(word) <= n:
            raise Refused(f"order-range {place}")
        if int(word) - 1 in order:
            raise Refused(f"order-repeated {place}")
        order.append(int(word) - 1)
    return order


# ---- numbers and lines of answers


def weight(rows, order):
    return sum(rows[a][b] for place, a in enumerate(order) for b in order[place + 1 :])


def total_of(rows):
    return sum(rows[i][j] for i in range(len(rows)) for j in range(len(rows)) if i != j)


def printed(number, k):
    """A number of units of 10^-k with its k decimals."""
    if k == 0:
        return str(number)
    return ("-" if number < 0 else "") + f"{abs(number) // 10**k}.{abs(number) % 10**k:0{k}d}"


def linearity(value, total):
    if total <= 0 or value < 0:
        return "none"
    parts = value * 10_000 // total
    return f"{parts // 10_000}.{parts % 10_000:04d}"


def of_profile(profile, value, total):
    return [] if profile is None else [f"voters {profile.voters()}", f"disagreements {total - value}"]


def value_lines(rows, profile, k, order):
    value, total = weight(rows, order), total_of(rows)
    return [f"objects {len(rows)}", f"value {printed(value, k)}", f"total {printed(total, k)}", f"linearity {linearity(value, total)}"] + of_profile(profile, value, total)


def best_value(rows):
    """The greatest weight of an order, over all subsets of the objects."""
    n = len(rows)
    best = [0] + [None] * (2**n - 1)
    for chosen in range(1, 2**n):
        for last in range(n):
            if chosen >> last & 1:
                rest = chosen ^ (1 << last)
                here = best[rest] + sum(rows[i][last] for i in range(n) if rest >> i & 1)
                if best[chosen] is None or here > best[chosen]:
                    best[chosen] = here
    return best[-1]


# ---- certificates


class Rejected(Exception):
    def __init__(self, line, reason):
        self.line, self.reason = line, reason


class TooLong(Exception):
    pass


MOST = 2**63 - 1
MOST_TERMS = 67_112_960
ROWS = {b"lopcert", b"objects", b"order", b"value", b"bound", b"cuts", b"dicycle", b"fence", b"ladder", b"records", b"record", b"split", b"leaf", b"end"}
ONE = {b"lopcert", b"objects", b"value", b"bound", b"cuts", b"records"}


def spelled(line):
    """The first word and the numbers of a line, or None where it is no line."""
    parts = line.split(b" ")
    word, rest = parts[0], parts[1:]
    if word not in ROWS:
        return None
    numbers = []
    for part in rest:
        digits, sign = part, 1
        if word in (b"value", b"bound") and part.startswith(b"-"):
            digits, sign = part[1:], -1
            if digits == b"0":
                return None
        if not is_digits(digits) or (digits[:1] == b"0" and len(digits) > 1) or len(digits) > 19 or int(digits) > MOST:
            return None
        numbers.append(sign * int(digits))
    if word == b"end":
        right = not numbers
    elif word in ONE:
        right = len(numbers) == 1
    else:
        right = len(numbers) >= 1
    if word == b"lopcert":
        right = numbers in ([1], [2])
    if word in (b"cuts", b"records"):
        right = right and numbers[0] <= 1_048_576
    return (word, numbers) if right else None


class Lines:
    """The lines of a certificate, one after another."""

    def __init__(self, data):
        self.data, self.at, self.number = data, 0, 0

    def next(self, *due):
        self.number += 1
        if self.at == len(self.data):
            raise Rejected(self.number, "short")
        end = self.data.find(b"\n", self.at)
        line = self.data[self.at :] if end < 0 else self.data[self.at : end]
        if end < 0 or len(line) > 131_072:
            raise Rejected(self.number, "spelling")
        self.at = end + 1
        found = spelled(line)
        if found is None or found[0] not in due:
            raise Rejected(self.number, "spelling")
        return found

    def reject(self, reason):
        raise Rejected(self.number, reason)


def cycle_arcs(objects):
    return [(a, objects[(place + 1) % len(objects)]) for place, a in enumerate(objects)]


def cut_of(word, numbers, n):
    """The arcs and the right side of a cut, or None."""
    named = lambda ns: all(1 <= it <= n for it in ns)
    different = lambda ns: len(set(ns)) == len(ns)
    if word == b"dicycle":
        return (cycle_arcs(numbers), 2) if len(numbers) == 3 and named(numbers) and different(numbers) else None
    k, rest = numbers[0], numbers[1:]
    if word == b"fence":
        if not 3 <= k <= 8 or len(rest) != 2 * k or not named(rest) or not different(rest):
            return None
        u, w = rest[:k], rest[k:]
        arcs = [(u[i], w[i]) for i in range(k)] + [(w[i], u[j]) for i in range(k) for j in range(k) if i != j]
        return arcs, k * k - k + 1
    if k not in (3, 5, 7, 9):
        return None
    cycles = []
    while rest:
        length, objects = rest[0], rest[1 : 1 + rest[0]]
        if length not in (3, 4) or len(objects) != length or not named(objects) or not different(objects):
            return None
        cycles.append(cycle_arcs(objects))
        rest = rest[1 + length :]
    arcs = list(dict.fromkeys(arc for cycle in cycles for arc in cycle))
    if len(cycles) != k or any(sum(arc in cycle for cycle in cycles) > 2 for arc in arcs):
        return None
    return arcs, len(arcs) - (k + 1) // 2


def record_of(numbers, cuts):
    """The scale and the terms that a record's numbers spell, each term a cut with its multiplier, or None."""
    if len(numbers) < 2 or len(numbers) != 2 + 2 * numbers[1] or not 1 <= numbers[0] <= 65_536 or numbers[1] > 4_096:
        return None
    named, multipliers = numbers[2::2], numbers[3::2]
    if any(b <= a for a, b in zip([0] + named, named)) or any(it > len(cuts) for it in named) or 0 in multipliers:
        return None
    return numbers[0], [(cuts[it - 1], m) for it, m in zip(named, multipliers)]


def read_records(lines, cuts):
    """The records of a text of version 2."""
    records, terms = [], 0
    for _ in range(lines.next(b"records")[1][0]):
        found = record_of(lines.next(b"record")[1], cuts)
        if found is None or terms + len(found[1]) > MOST_TERMS:
            lines.reject("record")
        records.append(found)
        terms += len(found[1])
    return records


def reaches(path, a, b):
    """Whether a chain of the path's pairs leads from a to b."""
    seen, left = set(), [a]
    while left:
        here = left.pop()
        for before, after in path:
            if before == here and after not in seen:
                seen.add(after)
                left.append(after)
    return b in seen


def upper(rows, path, scale, terms):
    """The number U of a leaf; objects count from 1 in path and terms."""
    n = len(rows)
    charge = {}
    for (arcs, _), multiplier in terms:
        for arc in arcs:
            charge[arc] = charge.get(arc, 0) + multiplier
    r = lambda i, j: scale * rows[i - 1][j - 1] - charge.get((i, j), 0)
    value = sum(multiplier * right for (_, right), multiplier in terms)
    for j in range(1, n + 1):
        for i in range(1, j):
            if reaches(path, i, j):
                value += r(i, j)
            elif reaches(path, j, i):
                value += r(j, i)
            else:
                value += max(r(i, j), r(j, i))
    return value


def check(rows, data):
    """Value, bound and the number of nodes of a certificate that is accepted; else Rejected."""
    n, lines = len(rows), Lines(data)
    version = lines.next(b"lopcert")[1][0]
    if lines.next(b"objects")[1][0] != n:
        lines.reject("size")
    order = [it - 1 for it in lines.next(b"order")[1]]
    if sorted(order) != list(range(n)):
        lines.reject("order")
    value = lines.next(b"value")[1][0]
    found = weight(rows, order)
    if value != found:
        lines.reject(f"value {value} {found}")
    bound = lines.next(b"bound")[1][0]
    cuts = []
    for _ in range(lines.next(b"cuts")[1][0]):
        word, numbers = lines.next(b"dicycle", b"fence", b"ladder")
        cut = cut_of(word, numbers, n)
        if cut is None:
            lines.reject("cut")
        cuts.append(cut)
    records = read_records(lines, cuts) if version == 2 else None
    pending, nodes = [[]], 0
    while pending:
        path, nodes = pending.pop(), nodes + 1
        word, numbers = lines.next(b"split", b"leaf")
        if word == b"split":
            if len(numbers) != 2 or not all(1 <= it <= n for it in numbers) or numbers[0] == numbers[1]:
                lines.reject("split")
            a, b = numbers
            if reaches(path, a, b) or reaches(path, b, a):
                lines.reject("split")
            pending += [path + [(b, a)], path + [(a, b)]]
            continue
        if version == 1:
            found = record_of(numbers, cuts)
        else:
            found = records[numbers[0] - 1] if len(numbers) == 1 and 1 <= numbers[0] <= len(records) else None
        if found is None:
            lines.reject("leaf")
        scale, terms = found
        u = upper(rows, path, scale, terms)
        if u >= scale * (bound + 1):
            lines.reject(f"high {u} {scale * (bound + 1)}")
    lines.next(b"end")
    if lines.at < len(data):
        lines.number += 1
        lines.reject("tail")
    return value, bound, nodes
