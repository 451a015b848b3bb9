"""The course program once more, written from document 01's words alone: needs by a depth-first walk of the listed pairs, everything else by looking
through all units. Slow and plain, so that it can be read beside the document."""

MAX_UNITS, MAX_TRACKS, MAX_NEEDS, MAX_LINES = 1024, 32, 8192, 65535
DIGITS = b"0123456789abcdef"


class Refused(Exception):
    """A numbered refusal with its place."""

    def __init__(self, number, place):
        super().__init__(number, place)
        self.number, self.place = number, place


def refused_line(number, place):
    return "refused %02d %08x\n" % (number, place)


class Course:
    """A listing: n, k, the track of each unit and the listed pairs."""

    def __init__(self, n, k, tracks, pairs):
        self.n, self.k, self.tracks, self.pairs = n, k, tracks, pairs
        self.units = range(1, n + 1)

    def check(self):
        """Refusals 2 to 5, in the order of their numbers."""
        for u in self.units:
            if self.tracks[u - 1] >= self.k:
                raise Refused(2, u)
        for q in range(self.k):
            if q not in self.tracks:
                raise Refused(3, q)
        for i, (u, v) in enumerate(self.pairs):
            if not (1 <= u <= self.n and 1 <= v <= self.n and v < u):
                raise Refused(4, i)
        for i in range(1, len(self.pairs)):
            if not self.pairs[i - 1] < self.pairs[i]:
                raise Refused(5, i)

    def load(self):
        """Works out what each unit needs, and refusal 7."""
        listed = {u: [] for u in self.units}
        for u, v in self.pairs:
            listed[u].append(v)
        self.needed = {}
        for u in self.units:
            seen, todo = set(), list(listed[u])
            while todo:
                v = todo.pop()
                if v not in seen:
                    seen.add(v)
                    todo.extend(listed[v])
            self.needed[u] = seen
        last = {}
        for u in self.units:
            q = self.tracks[u - 1]
            if q in last and last[q] not in self.needed[u]:
                raise Refused(7, u)
            last[q] = u
        self.steps = {u: {v for v in self.needed[u] if not any(v in self.needed[w] for w in self.needed[u])} for u in self.units}

    def in_track(self, q):
        return [u for u in self.units if self.tracks[u - 1] == q]

    def stage(self, u):
        below = [v for v in self.steps[u] if v < u]
        return 1 if not below else 1 + self.stage(max(below))

    def ask(self, kind, a, b):
        """The printed answer to a question, or refusal 8."""
        if not 1 <= a <= self.n:
            raise Refused(8, 1)
        if kind in ("10", "11"):
            if not 1 <= b <= self.n:
                raise Refused(8, 2)
            return "yes\n" if b in (self.needed if kind == "10" else self.steps)[a] else "no\n"
        if kind in ("12", "13", "14", "15"):
            table = self.needed if kind in ("12", "13") else self.steps
            units = sorted(table[a]) if kind in ("12", "14") else [v for v in self.units if a in table[v]]
            return " ".join("%04x" % x for x in [len(units)] + units) + "\n"
        if kind == "16":
            return "%04x\n" % self.stage(a)
        if b >= self.k:
            raise Refused(8, 2)
        if kind == "17":
            found = [v for v in self.in_track(b) if v in self.needed[a]]
            return "%04x\n" % (found[-1] if found else 0)
        found = [v for v in self.in_track(b) if a in self.needed[v]]
        return "%04x\n" % (found[0] if found else 0)


def frame(line):
    """The kind's digits and the two numbers, or None where the line is no frame."""
    if len(line) != 11 or line[10:] != b"\n" or any(c not in DIGITS for c in line[:10]):
        return None
    return line[:2].decode(), int(line[2:6], 16), int(line[6:10], 16)


def lines_of(data):
    """The lines of a file, each with its line feed where it has one."""
    parts = data.split(b"\n")
    lines = [p + b"\n" for p in parts[:-1]]
    return lines + ([parts[-1]] if parts[-1] else [])


def prints(data):
    """What the program prints for the bytes of a file."""
    out = []
    try:
        run(lines_of(data), out)
    except Refused as r:
        out.append(refused_line(r.number, r.place))
    return "".join(out).encode()


def run(lines, out):
    course, n, k, tracks, pairs = None, None, None, [], []
    for number, line in enumerate(lines, 1):
        read = frame(line)
        if read is None:
            raise Refused(11, number)
        if number > MAX_LINES:
            raise Refused(12, number)
        kind, a, b = read
        if course is not None:
            if kind not in ("10", "11", "12", "13", "14", "15", "16", "17", "18"):
                raise Refused(12, number)
            if kind in ("12", "13", "14", "15", "16") and b != 0:
                raise Refused(12, number)
            try:
                out.append(course.ask(kind, a, b))
            except Refused as r:
                out.append(refused_line(r.number, r.place))
        elif n is None:
            if kind != "01":
                raise Refused(12, number)
            if not (1 <= a <= MAX_UNITS and 1 <= b <= MAX_TRACKS):
                raise Refused(1, 0)
            n, k = a, b
        elif len(tracks) < n:
            if kind != "02" or a != len(tracks) + 1:
                raise Refused(12, number)
            tracks.append(b)
        elif kind == "03":
            if len(pairs) == MAX_NEEDS:
                raise Refused(1, 0)
            pairs.append((a, b))
        elif kind == "04":
            if a != len(pairs) or b != 0:
                raise Refused(12, number)
            made = Course(n, k, tracks, pairs)
            made.check()
            made.load()
            course = made
            out.append("built %08x\n" % (2 * n * (k - 1)))
        else:
            raise Refused(12, number)
    if course is None:
        raise Refused(12, len(lines) + 1)
