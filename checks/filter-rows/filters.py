"""The filters as functions on whole streams, read from their rules in words, and from no code of the program.

A stream is its items and how it stands behind them: open, whole or broken. A picture is (pts, duration, planes), each plane a list of
rows; a piece of sound is (pts, channels), each channel a list of samples."""

import collections
import itertools
import re
from fractions import Fraction
from math import ceil, floor, gcd, lcm

OPEN, WHOLE, BROKEN = "open", "whole", "broken"
Stream = collections.namedtuple("Stream", "items mark")
Pictures = collections.namedtuple("Pictures", "base format width height aspect")
Sound = collections.namedtuple("Sound", "base rate bits channels codec")
LAST_SECOND = 10 ** 9


class Refused(Exception):
    """Why a filter's arguments or inputs are refused."""


def is_sound(head):
    return isinstance(head, Sound)


# Planes. Cb and Cr of 4:2:0 have half of the columns and rows, of 4:2:2 half of the columns, rounded up; mono has Y alone. ------------

def grid(form):
    """How many columns and rows of Y share a sample of Cb and Cr."""
    return {"420": (2, 2), "422": (2, 1), "444": (1, 1), "mono": (1, 1)}[form]


def sizes(form, width, height):
    """Columns and rows of each plane."""
    across, down = grid(form)
    chroma = (-(-width // across), -(-height // down))
    return [(width, height)] if form == "mono" else [(width, height), chroma, chroma]


def frame(head, pts, duration, planes):
    assert [(len(rows[0]), len(rows)) for rows in planes] == sizes(head.format, head.width, head.height)
    return (pts, duration, planes)


# Times ---------------------------------------------------------------------------------------------------------------------------------

def end_of(item, head):
    return item[0] + (len(item[1][0]) if is_sound(head) else item[1])


def duration_of(text):
    """[HH:]MM:SS[.m] or S[.m][s|ms|us], at most 64 bytes: microseconds, what lies below one cut off; at most 10^15."""
    if len(text) > 64:
        raise Refused("bad option")
    clock = re.fullmatch(r"(?:([0-9]{1,6}):)?([0-9]{1,2}):([0-9]{1,2})(\.[0-9]+)?", text)
    plain = re.fullmatch(r"([0-9]+)(\.[0-9]+)?(s|ms|us)?", text)
    if clock and int(clock[2]) < 60 and int(clock[3]) < 60:
        seconds = 3600 * int(clock[1] or 0) + 60 * int(clock[2]) + int(clock[3]) + Fraction("0" + (clock[4] or ".0"))
        exact = seconds * 10 ** 6
    elif plain:
        exact = (int(plain[1]) + Fraction("0" + (plain[2] or ".0"))) * {None: 10 ** 6, "s": 10 ** 6, "ms": 1000, "us": 1}[plain[3]]
    else:
        raise Refused("bad option")
    if floor(exact) > 10 ** 15:
        raise Refused("bad option")
    return floor(exact)


def ceil_units(microseconds, base):
    """The least number of units that is at least so many microseconds."""
    return ceil(Fraction(microseconds, 10 ** 6) / base)


def rescaled(units, base, other):
    """To the nearest number of units of the other base, halves upwards (no time lies before 0)."""
    return floor(Fraction(units) * base / other + Fraction(1, 2))


# Arguments -----------------------------------------------------------------------------------------------------------------------------

def split_args(text):
    """Each argument's key, or None, and its value; of quotes and escapes only `\\` is used here."""
    args = []
    for part in re.split(r"(?<!\\):", text):
        keyed = re.match(r"([A-Za-z0-9_]{1,64})=", part)
        key, value = (keyed[1], part[keyed.end():]) if keyed else (None, part)
        args.append((key, re.sub(r"\\(.)", r"\1", value)))
    return args


def given(args, options, places=None):
    """Which option each argument gives, by key or by place, where no more than so many are given by place: None where it gives none."""
    places = len(options) if places is None else places
    keyed = False
    found = []
    for place, (key, _) in enumerate(args):
        if key is not None:
            found.append(next((name for name, keys, _ in options if key in keys), None))
            keyed = True
        else:
            found.append(options[place][0] if place < places and not keyed else None)
    return found


def read_args(args, options, places=None):
    """The values by option, the last one of each. The first argument at fault refuses."""
    values = {}
    for name, (_, value) in zip(given(args, options, places), args):
        if name is None:
            raise Refused("unknown option")
        values[name] = next(read for n, _, read in options if n == name)(value)
    return values


def number(digits, least, most):
    """A whole number of at most so many digits within a range."""
    def read(text):
        if not re.fullmatch(f"[0-9]{{1,{digits}}}", text) or not least <= int(text) <= most:
            raise Refused("bad option")
        return int(text)
    return read


def last(args, options, option, default):
    """The value of the last argument that gives an option; the default where there is none, or that one is refused."""
    values = [value for name, (_, value) in zip(given(args, options), args) if name == option]
    try:
        return next(read for n, _, read in options if n == option)(values[-1]) if values else default
    except Refused:
        return default


def check_inputs(heads, count, sound):
    if len(heads) != count:
        raise Refused("wrong number of pads")
    if any(is_sound(head) != sound for head in heads):
        raise Refused("wrong kind")


# What becomes of streams where one breaks off ------------------------------------------------------------------------------------------

def on_ports(heads, outs, function, onwards=None):
    """The function of the inputs by the rules: a broken input counts as open without a further item; an output is broken where an input
    is, it isn't whole, and however the open inputs go on it gets no further item and isn't made whole; and broken before the first item
    that ends past the last second. `onwards` gives some ways in which an open input goes on, enough to find one that gives more."""
    def opened(streams):
        return function([Stream(s.items, OPEN if s.mark == BROKEN else s.mark) for s in streams])

    def meant(streams):
        made = opened(streams)
        ways = [onwards(streams, p) if s.mark == OPEN else [s] for p, s in enumerate(streams)] if onwards else [[s] for s in streams]
        further = [opened(list(way)) for way in itertools.product(*ways)] if any(s.mark == BROKEN for s in streams) else []
        results = []
        for q, stream in enumerate(made):
            on = any(other[q].mark == WHOLE or len(other[q].items) > len(stream.items) for other in further)
            broken = stream.mark != WHOLE and bool(further) and not on
            results.append(within(Stream(stream.items, BROKEN if broken else stream.mark), outs[q]))
        return results
    return outs, meant


def within(stream, head):
    """Up to the last item before the first one that ends past 1,000,000,000 seconds, and then broken."""
    late = [i for i, item in enumerate(stream.items) if end_of(item, head) * head.base > LAST_SECOND]
    return Stream(stream.items[:late[0]], BROKEN) if late else stream


def each(make):
    """The function of one input whose items are made one of another."""
    return lambda streams: [Stream([make(item) for item in streams[0].items], streams[0].mark)]


# One input -----------------------------------------------------------------------------------------------------------------------------

def null(args, heads, sound=False):
    check_inputs(heads, 1, sound)
    read_args(args, [])
    return on_ports(heads, heads, each(lambda item: item))


TIMES = [("start", ["start"], duration_of), ("end", ["end"], duration_of), ("duration", ["duration"], duration_of)]


def trim(args, heads, sound=False):
    """Pictures with a pts from the start to below the end, and sound cut at the sample. Whole at the first picture at or past the end, at
    the first frame of sound that ends at or past it, and at once where the end is 0. With a duration, which is given by name alone and
    isn't 0, the end is the later of its own and so many ticks from the first picture or sample kept on; before that one there is none."""
    check_inputs(heads, 1, sound)
    values = read_args(args, TIMES, 2)
    base = heads[0].base
    start = ceil_units(values.get("start", 0), base)
    own = ceil_units(values["end"], base) if "end" in values else None
    duration = ceil_units(values.get("duration", 0), base)

    def function(streams):
        items, mark = streams[0]
        kept = []
        end = None if duration else own
        if end == 0:
            return [Stream([], WHOLE)]
        for item in items:
            if duration and end is None and end_of(item, heads[0]) > start and (sound or item[0] >= start):
                end = max(own or 0, max(item[0], start) + duration)
            if not sound:
                if end is not None and item[0] >= end:
                    return [Stream(kept, WHOLE)]
                kept += [item] if item[0] >= start else []
                continue
            pts, channels = item
            numbers = [n for n in range(len(channels[0])) if start <= pts + n and (end is None or pts + n < end)]
            if numbers:
                kept.append((pts + numbers[0], [[channel[n] for n in numbers] for channel in channels]))
            if end is not None and end_of(item, heads[0]) >= end:
                return [Stream(kept, WHOLE)]
        return [Stream(kept, mark)]
    return on_ports(heads, heads, function)


def only_start(text):
    if text != "PTS-STARTPTS":
        raise Refused("bad option")
    return text


def setpts(args, heads, sound=False):
    """The first item's pts is taken from each."""
    check_inputs(heads, 1, sound)
    if not read_args(args, [("expr", ["expr"], only_start)]):
        raise Refused("bad option")
    return on_ports(heads, heads, lambda streams: [Stream([(item[0] - streams[0].items[0][0],) + item[1:] for item in streams[0].items],
                                                          streams[0].mark)])


FIVE = number(5, 0, 99999)


def placed(args, heads, names):
    """Columns, rows and places by the arguments, each that is given rounded down to a multiple of 2 where the planes need it."""
    check_inputs(heads, 1, False)
    values = read_args(args, [("w", [names[0], "w"], FIVE), ("h", [names[1], "h"], FIVE), ("x", ["x"], FIVE), ("y", ["y"], FIVE)])
    across, down = grid(heads[0].format)
    steps = {"w": across, "x": across, "h": down, "y": down}
    return {name: value // steps[name] * steps[name] for name, value in values.items()}, across, down


# The filter that makes each picture anew in another size: each plane by what `paint` makes of it, at the place of the corner in it.
def resized(heads, values, corner, across, down, paint):
    head = heads[0]
    out = head._replace(width=values.get("w", head.width), height=values.get("h", head.height))

    def make(item):
        planes = []
        for number, ((columns, rows), plane) in enumerate(zip(sizes(out.format, out.width, out.height), item[2])):
            left, top = corner if number == 0 else (corner[0] // across, corner[1] // down)
            planes.append(paint(number, plane, left, top, columns, rows))
        return frame(out, item[0], item[1], planes)
    return on_ports(heads, [out], each(make))


def crop(args, heads):
    values, across, down = placed(args, heads, ("out_w", "out_h"))
    head = heads[0]
    width, height = values.get("w", head.width), values.get("h", head.height)
    x = values.get("x", (head.width - width) // 2 // across * across)
    y = values.get("y", (head.height - height) // 2 // down * down)
    if not (1 <= width <= 16384 and 1 <= height <= 16384 and 0 <= x and x + width <= head.width and 0 <= y and y + height <= head.height):
        raise Refused("bad size")

    def cut(number, plane, left, top, columns, rows):
        return [row[left:left + columns] for row in plane[top:top + rows]]
    return resized(heads, values, (x, y), across, down, cut)


def pad(args, heads):
    values, across, down = placed(args, heads, ("width", "height"))
    head = heads[0]
    width, height = values.get("w", head.width), values.get("h", head.height)
    x, y = values.get("x", 0), values.get("y", 0)
    if not (1 <= width <= 16384 and 1 <= height <= 16384 and x + head.width <= width and y + head.height <= height):
        raise Refused("bad size")

    def lay(number, plane, left, top, columns, rows):
        black = 16 if number == 0 else 128
        return [[plane[r - top][c - left] if 0 <= r - top < len(plane) and 0 <= c - left < len(plane[0]) else black for c in range(columns)]
                for r in range(rows)]
    return resized(heads, values, (x, y), across, down, lay)


def hflip(args, heads):
    check_inputs(heads, 1, False)
    read_args(args, [])
    return on_ports(heads, heads, each(lambda item: (item[0], item[1], [[row[::-1] for row in plane] for plane in item[2]])))


def vflip(args, heads):
    check_inputs(heads, 1, False)
    read_args(args, [])
    return on_ports(heads, heads, each(lambda item: (item[0], item[1], [plane[::-1] for plane in item[2]])))


def ratio(text):
    """The time base 1/fps of N or N/D."""
    found = re.fullmatch(r"([0-9]{1,10})(?:/([0-9]{1,10}))?", text)
    if not found:
        raise Refused("bad option")
    num, den = int(found[1]), int(found[2] or 1)
    if num == 0 or den == 0 or max(num, den) // gcd(num, den) > 2 ** 31 - 1:
        raise Refused("bad option")
    return Fraction(den, num)


def fps(args, heads):
    """Numbers from the first item's q to below the rescaled end of the last item; number n shows the last item with q at most n. On an
    input that isn't whole, n is there where an item has q above n."""
    check_inputs(heads, 1, False)
    base = read_args(args, [("fps", ["fps"], ratio)]).get("fps", Fraction(1, 25))
    out = heads[0]._replace(base=base)

    def function(streams):
        items, mark = streams[0]
        if not items:
            return [Stream([], mark)]
        numbers = [rescaled(item[0], heads[0].base, base) for item in items]
        behind = rescaled(end_of(items[-1], heads[0]), heads[0].base, base) if mark == WHOLE else max(numbers)
        shown = [(n, 1, [item for q, item in zip(numbers, items) if q <= n][-1][2]) for n in range(numbers[0], behind)]
        return [Stream(shown, mark)]
    return on_ports(heads, [out], function)


def split(args, heads, sound=False):
    check_inputs(heads, 1, sound)
    outputs = read_args(args, [("outputs", ["outputs"], number(5, 1, 16))]).get("outputs", 2)
    return on_ports(heads, heads * outputs, lambda streams: streams * outputs)


def channelsplit(args, heads):
    check_inputs(heads, 1, True)
    read_args(args, [])
    count = heads[0].channels
    outs = [heads[0]._replace(channels=1)] * count
    return on_ports(heads, outs, lambda streams: [Stream([(pts, [channels[c]]) for pts, channels in streams[0].items], streams[0].mark)
                                                  for c in range(count)])


# Several inputs ------------------------------------------------------------------------------------------------------------------------

def common_base(bases):
    """The greatest base in which the times of each are whole; None where they differ and it isn't at least 1/1000000 of a whole number."""
    if len(set(bases)) == 1:
        return bases[0]
    under = lcm(*(base.denominator for base in bases))
    return None if under > 1_000_000 else Fraction(gcd(*(base.numerator for base in bases)), under)


def stack(args, heads, beside):
    """Pictures of several inputs side by side, or one below the other, at each time at which one of them starts a picture."""
    options = [("inputs", ["inputs"], number(5, 2, 16)), ("shortest", ["shortest"], number(5, 0, 1))]
    check_inputs(heads, last(args, options, "inputs", 2), False)
    shortest = read_args(args, options).get("shortest", 0) == 1
    first = heads[0]
    base = common_base([head.base for head in heads])
    if base is None or any((head.format, head.height if beside else head.width) != (first.format, first.height if beside else first.width)
                           for head in heads):
        raise Refused("mismatch")
    lengths = [head.width if beside else head.height for head in heads]
    step = grid(first.format)[0 if beside else 1]
    if sum(lengths) > 16384 or any(length % step for length in lengths[:-1]):
        raise Refused("bad size")
    out = first._replace(base=base, width=sum(lengths)) if beside else first._replace(base=base, height=sum(lengths))

    def told(streams):
        """The streams with their times in the common base."""
        units = [int(head.base / base) for head in heads]
        return [Stream([(item[0] * n, item[1] * n, *item[2:]) for item in s.items], s.mark) for s, n in zip(streams, units)]

    def shown(streams, t):
        pictures = [[item for item in s.items if item[0] <= t][-1] for s in streams]
        end = max(end_of(pictures[0], first), t + 1)
        planes = zip(*(picture[2] for picture in pictures))
        if beside:
            joined = [[sum(rows, []) for rows in zip(*plane)] for plane in planes]
        else:
            joined = [sum(plane, []) for plane in planes]
        return frame(out, t, end - t, joined)

    def function(streams):
        streams = told(streams)
        times = sorted({item[0] for s in streams for item in s.items})
        events = [t for t in times if all(any(item[0] <= t for item in s.items) for s in streams)]
        if shortest:
            events = [t for t in events if not any(s.mark == WHOLE and all(item[0] < t for item in s.items) for s in streams)]
        decided = [t for t in events if all(s.mark == WHOLE or any(item[0] >= t for item in s.items) for s in streams)]
        whole = all(s.mark == WHOLE for s in streams) or any(s.mark == WHOLE and not s.items for s in streams)
        if shortest and not whole:
            whole = any(s.mark == WHOLE and all(o.mark == WHOLE or any(item[0] >= s.items[-1][0] for item in o.items) for o in streams)
                        for s in streams)
        return [Stream([shown(streams, t) for t in decided], WHOLE if whole else OPEN)]

    def onwards(streams, p):
        """It ends; or a picture comes at each time that matters, and it goes on or ends."""
        items, _ = streams[p]
        own = heads[p]
        black = [[[0] * columns for _ in range(rows)] for columns, rows in sizes(own.format, own.width, own.height)]
        times = sorted({floor(item[0] * head.base / own.base) + n for s, head in zip(streams, heads) for item in s.items for n in (0, 1, 2)} | {0})
        more = list(items)
        for t in times:
            if not more or t > more[-1][0]:
                more.append((t, max(1, end_of(more[-1], own) - t if more else 1), black))
        return [Stream(items, WHOLE), Stream(more, OPEN), Stream(more, WHOLE), Stream(items, OPEN)]
    return on_ports(heads, [out], function, onwards)


def concat(args, heads):
    """The items of each segment in order, shifted by the end of the last item given so far: 0 where there is none; the first segment
    isn't shifted. So it is with one stream a segment; with two only what is refused is said here."""
    bit = number(5, 0, 1)
    options = [("n", ["n"], number(5, 2, 16)), ("v", ["v"], bit), ("a", ["a"], bit)]
    names = given(args, options)

    def said(option, default):
        """The value of the last argument that gives an option, and None where that one is refused."""
        return last(args, options, option, None) if option in names else default
    count, video, audio = said("n", 2), said("v", 1), said("a", 0)
    # Where v or a is refused, or neither is 1, the kinds are video alone. Where there are too many inputs, the last argument that gives an
    # option is refused: n then counts as 2, and v and a as video alone.
    kinds = (video, audio) if video is not None and audio is not None and video + audio else (1, 0)
    count = 2 if count is None else count
    too_many = None not in (video, audio) and video + audio and count * sum(kinds) > 16
    if too_many:
        if [name for name in names if name][-1] == "n":
            count = 2
        else:
            kinds = (1, 0)
    if len(heads) != count * sum(kinds):
        raise Refused("wrong number of pads")
    wanted = [sound for sound, asked in zip((False, True), kinds) if asked]
    if [is_sound(head) for head in heads] != wanted * count:
        raise Refused("wrong kind")
    # Neither kind is refused at the last argument that gives v or a, too many inputs at the last that gives an option.
    ends = [max((i for i, name in enumerate(names) if name in within), default=None) for within in (("v", "a"), ("n", "v", "a"))]
    faults = [ends[0]] if None not in (video, audio) and not video + audio else []
    faults += [ends[1]] if too_many else []
    read_args(args if not faults or None in faults else args[:min(faults) + 1], options)
    if faults:
        raise Refused("bad option")
    width = sum(kinds)
    if any(head != heads[place % width] for place, head in enumerate(heads)):
        raise Refused("mismatch")
    if width == 2:
        return heads[:2], None
    head = heads[0]

    def function(streams):
        items, end = [], 0
        for number, s in enumerate(streams):
            shift = end if number else 0
            items += [(item[0] + shift,) + item[1:] for item in s.items]
            end = end_of(items[-1], head) if items else 0
            if s.mark != WHOLE:
                return [Stream(items, OPEN)]
        return [Stream(items, WHOLE)]

    def onwards(streams, p):
        items, _ = streams[p]
        start = end_of(items[-1], head) if items else 0
        other = (start, [[0]] * head.channels) if is_sound(head) else \
            (start, 1, [[[0] * columns for _ in range(rows)] for columns, rows in sizes(head.format, head.width, head.height)])
        return [Stream(items, WHOLE), Stream(items + [other], OPEN), Stream(items + [other], WHOLE)]
    return on_ports(heads, [head], function, onwards)


def join(args, heads):
    """Sample n of the output is the inputs' channels in order at their sample n, by position; it ends with the shortest. Frames have 1,024
    samples, the last one the rest."""
    options = [("inputs", ["inputs"], number(5, 2, 8))]
    check_inputs(heads, last(args, options, "inputs", 2), True)
    read_args(args, options)
    first = heads[0]
    if any((head.rate, head.bits) != (first.rate, first.bits) for head in heads):
        raise Refused("mismatch")
    total = sum(head.channels for head in heads)
    if total > 8:
        raise Refused("bad size")
    out = first._replace(channels=total)

    def function(streams):
        inputs = [[sum((item[1][c] for item in s.items), []) for c in range(head.channels)] for s, head in zip(streams, heads)]
        counts = [len(channels[0]) for channels in inputs]
        there = min(counts)
        whole = any(s.mark == WHOLE and count == there for s, count in zip(streams, counts))
        ends = [min(n + 1024, there) for n in range(0, there, 1024) if whole or n + 1024 <= there]
        start = streams[0].items[0][0] if streams[0].items else 0
        items = [(start + n, [channel[n:end] for channels in inputs for channel in channels]) for n, end in zip(range(0, there, 1024), ends)]
        return [Stream(items, WHOLE if whole else OPEN)]

    def onwards(streams, p):
        items, _ = streams[p]
        start = end_of(items[-1], heads[p]) if items else 0
        more = items + [(start, [[0] * 60000] * heads[p].channels)]
        return [Stream(items, WHOLE), Stream(more, OPEN), Stream(more, WHOLE)]
    return on_ports(heads, [out], function, onwards)


def shortest(args, heads):
    """The streams of one output: of each the items that start before the least end among the streams that are whole, compared exactly. An
    item is kept where every other stream has an item that ends after its start. A stream is whole where each of its items is kept, or
    starts at or after the end of some whole stream, and it is whole, or has an item that does. One without items ends at 0."""
    def end(items, head):
        return end_of(items[-1], head) * head.base if items else 0

    def function(streams):
        ends = [end(s.items, head) for s, head in zip(streams, heads)]
        over = [e for e, s in zip(ends, streams) if s.mark == WHOLE]
        made = []
        for i, (items, mark) in enumerate(streams):
            starts = [item[0] * heads[i].base for item in items]
            kept = [all(start < e for j, e in enumerate(ends) if j != i) for start in starts]
            past = [any(start >= e for e in over) for start in starts]
            whole = all(k or p for k, p in zip(kept, past)) and (mark == WHOLE or any(past))
            made.append(Stream([item for item, k in zip(items, kept) if k], WHOLE if whole else OPEN))
        return made

    def onwards(streams, p):
        """It ends; or a long item comes as soon as one may, and it goes on or ends."""
        items, head = streams[p].items, heads[p]
        if is_sound(head):
            more = (end_of(items[-1], head) if items else 0, [[0] * 60000] * head.channels)
        else:
            start = items[-1][0] + 1 if items else 0
            more = (start, 60000, [[[0] * columns for _ in range(rows)] for columns, rows in sizes(head.format, head.width, head.height)])
        return [Stream(items, WHOLE), Stream(items + [more], OPEN), Stream(items + [more], WHOLE)]
    return on_ports(heads, heads, function, onwards)


# Source filters: no input, and one whole stream of frames that are made --------------------------------------------------------------------

def named(values):
    """One of these names."""
    def read(text):
        if text not in values:
            raise Refused("bad option")
        return values[text]
    return read


def size(text):
    """WxH, of whole numbers of 1 to 5 digits."""
    found = re.fullmatch(r"([0-9]{1,5})x([0-9]{1,5})", text)
    if not found:
        raise Refused("bad option")
    return int(found[1]), int(found[2])


def with_duration(args, options):
    """The values by option; a duration has to be among them."""
    values = read_args(args, [*options, ("duration", ["d", "duration"], duration_of)])
    if "duration" not in values:
        raise Refused("bad option")
    return values


def color(args, heads):
    """Pictures 0, 1, .. below the duration, each of one tick: Y of the colour, and 128 in Cb and Cr."""
    values = with_duration(args, [("color", ["c", "color"], named({"black": 16, "white": 235})), ("size", ["s", "size"], size),
                                  ("rate", ["r", "rate"], ratio)])
    width, height = values.get("size", (320, 240))
    if not (1 <= width <= 16384 and 1 <= height <= 16384):
        raise Refused("bad size")
    head = Pictures(values.get("rate", Fraction(1, 25)), "420", width, height, "1:1")

    def function(streams):
        shades = (values.get("color", 16), 128, 128)
        planes = [[[shade] * columns] * rows for shade, (columns, rows) in zip(shades, sizes("420", width, height))]
        return [Stream([frame(head, n, 1, planes) for n in range(ceil_units(values["duration"], head.base))], WHOLE)]
    return [head], function


def anullsrc(args, heads):
    """Zeros below the duration, in frames of 1,024; the last one has the rest."""
    values = with_duration(args, [("layout", ["cl", "channel_layout"], named({"mono": 1, "stereo": 2})),
                                  ("rate", ["r", "sample_rate"], number(10, 1, 2 ** 31 - 1))])
    rate = values.get("rate", 44100)
    head = Sound(Fraction(1, rate), rate, 16, values.get("layout", 2), "pcm_s16le")

    def function(streams):
        count = ceil_units(values["duration"], head.base)
        return [Stream([(at, [[0] * min(1024, count - at)] * head.channels) for at in range(0, count, 1024)], WHOLE)]
    return [head], function


FILTERS = {
    "null": null,
    "trim": trim,
    "setpts": setpts,
    "crop": crop,
    "pad": pad,
    "hflip": hflip,
    "vflip": vflip,
    "fps": fps,
    "split": split,
    "anull": lambda args, heads: null(args, heads, True),
    "atrim": lambda args, heads: trim(args, heads, True),
    "asetpts": lambda args, heads: setpts(args, heads, True),
    "asplit": lambda args, heads: split(args, heads, True),
    "channelsplit": channelsplit,
    "hstack": lambda args, heads: stack(args, heads, True),
    "vstack": lambda args, heads: stack(args, heads, False),
    "concat": concat,
    "join": join,
    "shortest": shortest,
    "color": color,
    "anullsrc": anullsrc,
}


def configured(text, heads):
    """The heads of a filter's outputs and its function of streams; or it is refused."""
    name, _, rest = text.partition("=")
    return FILTERS[name](split_args(rest) if "=" in text else [], heads)
