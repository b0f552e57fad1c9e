"""Rows of the tables of crates/ff_rows_filter: the text of heads and items, and what must come at each step of a row."""

from filters import BROKEN, OPEN, WHOLE, Refused, Stream, configured, frame, is_sound, sizes


def show_head(head):
    base = f"{head.base.numerator}/{head.base.denominator}"
    if is_sound(head):
        return f"sound {base} {head.rate} {head.bits} {head.channels} {head.codec}"
    return f"pictures {base} {head.format} {head.width}x{head.height} {head.aspect}"


def show_channel(samples):
    runs = []
    for sample in samples:
        if runs and sample == runs[-1][1] + 1:
            runs[-1][1] = sample
        else:
            runs.append([sample, sample])
    return ",".join(str(first) if first == last else f"{first}~{last}" for first, last in runs)


def show_item(item, head):
    if is_sound(head):
        return f"{item[0]}:" + "|".join(show_channel(channel) for channel in item[1])
    return f"{item[0]}+{item[1]}:" + "".join(bytes(row).hex() for plane in item[2] for row in plane)


def picture(head, pts, duration, seed):
    """A picture whose samples all differ, as far as there are bytes."""
    value = seed
    planes = []
    for columns, rows in sizes(head.format, head.width, head.height):
        planes.append([])
        for _ in range(rows):
            planes[-1].append([(value + c) % 256 for c in range(columns)])
            value += columns
    return frame(head, pts, duration, planes)


def pictures(head, times, seed=1):
    """One picture for each (pts, duration)."""
    count = sum(columns * rows for columns, rows in sizes(head.format, head.width, head.height))
    return [picture(head, pts, duration, seed + n * count) for n, (pts, duration) in enumerate(times)]


def sound(head, lengths, start=0, gap=0, seed=1):
    """Frames of so many samples, one after another; each channel counts on from its own number."""
    items = []
    done = 0
    for length in lengths:
        items.append((start, [list(range(seed + 1000 * c + done, seed + 1000 * c + done + length)) for c in range(head.channels)]))
        start += length + gap
        done += length
    return items


class Row:
    """A row whose lines are written step by step, each with what must come of it."""

    def __init__(self, title, text, heads):
        self.lines = [f"row {title}", f"filter {text}"] + [f"in {show_head(head)}" for head in heads]
        self.heads = heads
        self.fed = [Stream([], OPEN) for _ in heads]
        try:
            self.outs, self.function = configured(text, heads)
            self.lines += [f"out {show_head(head)}" for head in self.outs]
        except Refused as why:
            self.outs, self.function = [], None
            self.lines.append(f"refused {why}")
        self.given = [Stream([], OPEN) for _ in self.outs]
        self.stopped = [False for _ in self.outs]

    def due(self, q):
        """What the output has by now, and of that what wasn't given."""
        made = self.function(self.fed)[q]
        before = self.given[q]
        assert made.items[:len(before.items)] == before.items and (before.mark == OPEN or before == made), self.lines
        texts = [show_item(item, self.outs[q]) for item in made.items[len(before.items):]]
        if made.mark != before.mark:
            texts.append("end" if made.mark == WHOLE else "broken")
        return made, texts

    def feed(self, port, *items):
        """Feeds items, or WHOLE or BROKEN."""
        for item in items:
            before = self.fed[port]
            if item in (WHOLE, BROKEN):
                self.fed[port] = Stream(before.items, item)
                text = "end" if item == WHOLE else "broken"
            else:
                self.fed[port] = Stream(before.items + [item], OPEN)
                text = show_item(item, self.heads[port])
            self.lines.append(f"feed {port} {text}")
        return self

    def gives(self, q):
        made, texts = self.due(q)
        self.lines.append(" ".join([f"gives {q}"] + texts))
        self.given[q] = made
        return self

    def next(self, q):
        """One item, though more may be due."""
        made, texts = self.due(q)
        self.lines.append(" ".join([f"next {q}"] + texts[:1]))
        count = len(self.given[q].items) + 1
        self.given[q] = Stream(made.items[:count], OPEN if count <= len(made.items) else made.mark) if texts else made
        return self

    def stop(self, q):
        self.stopped[q] = True
        self.lines.append(f"stop {q}")
        return self

    def spent(self):
        """An input is spent where it has closed, or where each output that is wanted is closed in what was fed."""
        made = self.function(self.fed)
        over = all(stopped or stream.mark != OPEN for stopped, stream in zip(self.stopped, made))
        self.lines.append("spent " + "".join("1" if over or s.mark != OPEN else "0" for s in self.fed))
        return self

    def look(self):
        """All that is due on each output that is wanted, and which inputs are spent behind it, and before it."""
        self.spent()
        wanted = [q for q in range(len(self.outs)) if not self.stopped[q]]
        due = [q for q in wanted if self.due(q)[1]]
        for q in due:
            self.gives(q)
        if len(due) < len(wanted) or not due:
            self.lines.append("waits")
        if due:
            self.spent()
        return self

    def text(self):
        return "\n".join(self.lines) + "\n"


def steps(title, text, heads, order):
    """A row that looks at all outputs behind each step (port, item)."""
    row = Row(title, text, heads)
    if row.function:
        row.look()
        for port, item in order:
            row.feed(port, item).look()
    return row


def at_end(title, text, heads, order):
    """A row that feeds all and then looks once."""
    row = Row(title, text, heads)
    for port, item in order:
        row.feed(port, item)
    return row.look().look()


def fronts(title, text, head, items):
    """One input, whole and broken behind each number of items; the last row looks behind each step."""
    rows = []
    for count in range(len(items) + 1):
        for mark in (WHOLE, BROKEN):
            way = at_end if count < len(items) else steps
            rows.append(way(f"{title}, {mark} behind {count}", text, [head], [(0, item) for item in items[:count] + [mark]]))
    return rows
