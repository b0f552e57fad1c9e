"""What a command comes to, on whole lists: inputs as streams, cuts, graphs of one trim, -shortest by its definition, and the file or the
fault at the end. Read from the rules in words, and from no code of the program.

A stream has a time base, items (pts, duration, bytes) and a mark; of sound the bytes are those of so many sample frames as its duration."""

import hashlib
from collections import namedtuple
from fractions import Fraction
from math import ceil

WHOLE, BROKEN = "whole", "broken"
# `base` is a time base in seconds, `block` the bytes of a sample frame (0 of pictures), `lines` what a framehash says of the stream.
Head = namedtuple("Head", "base block lines")
# `fault` is where an input is damaged, though a cut may have closed the stream before.
Stream = namedtuple("Stream", "head items mark fault")


# ---- inputs: a file's bytes, and the stream that they stand for


def little(number, size):
    return number.to_bytes(size, "little")


def wav_head(channels, rate, bits, size, riff=None):
    block = channels * bits // 8
    said = 36 + size + size % 2 if riff is None else riff
    form = little(1, 2) + little(channels, 2) + little(rate, 4) + little(rate * block, 4) + little(block, 2) + little(bits, 2)
    return b"RIFF" + little(said, 4) + b"WAVEfmt " + little(16, 4) + form + b"data" + little(size, 4)


def sound_head(rate, codec, channels, block):
    layout = {1: "mono", 2: "stereo"}[channels]
    lines = ["media_type {}: audio", f"codec_id {{}}: {codec}", f"sample_rate {{}}: {rate}", f"channel_layout_name {{}}: {layout}"]
    return Head(Fraction(1, rate), block, [f"tb {{}}: 1/{rate}", *lines])


class Input(namedtuple("Input", "name body stream")):
    """A file and its stream."""

    def line(self):
        if all(byte == 10 or 32 <= byte < 127 for byte in self.body):
            return f"text {self.name} {escaped(self.body.decode())}"
        return f"file {self.name} {self.body.hex()}"


def wav(name, rate, body, channels=1, bits=8):
    """Packets of 1,024 sample frames, the last one the rest."""
    block = channels * bits // 8
    head = sound_head(rate, {8: "pcm_u8", 16: "pcm_s16le"}[bits], channels, block)
    items = [(at // block, len(body[at:at + 1024 * block]) // block, body[at:at + 1024 * block]) for at in range(0, len(body), 1024 * block)]
    return Input(f"{name}.wav", wav_head(channels, rate, bits, len(body)) + body + bytes(len(body) % 2), Stream(head, items, WHOLE, None))


def y4m(name, rate, frames, broken=False, width=1, height=1, form="mono"):
    """One packet a frame; behind the last one something that is no frame, where it is broken."""
    up, down = (int(part) for part in rate.split(":"))
    base = Fraction(down, up)
    body = f"YUV4MPEG2 W{width} H{height} F{rate} C{form}\n".encode() + b"".join(b"FRAME\n" + frame for frame in frames)
    lines = [f"tb {{}}: {base.numerator}/{base.denominator}", "media_type {}: video", "codec_id {}: rawvideo", f"dimensions {{}}: {width}x{height}", "sar {}: 0/1"]
    items = [(number, 1, frame) for number, frame in enumerate(frames)]
    return Input(f"{name}.y4m", body + b"FRAMQ" * broken, Stream(Head(base, 0, lines), items, BROKEN if broken else WHOLE, len(body) if broken else None))


def crc(bits, polynomial, body):
    """The remainder of a polynomial division, high bit first, that starts at 0."""
    value = 0
    for byte in body:
        value ^= byte << (bits - 8)
        for _ in range(8):
            value = (value << 1 ^ (polynomial if value >> (bits - 1) & 1 else 0)) & ((1 << bits) - 1)
    return value


def flac(name, rate, block, blocks, bits=8, damaged=None):
    """Frames of one channel and one constant each (RFC 9639, sections 8.2, 9.1 and 9.2.3); the check sum of one may be wrong."""
    code = {192: 1, 256: 8, 512: 9, 1024: 10, 2048: 11, 4096: 12}[block]
    info = block.to_bytes(2, "big") * 2 + bytes(6) + ((rate << 44) + (bits - 1 << 36) + block * len(blocks)).to_bytes(8, "big") + bytes(16)
    body, items, fault = b"fLaC" + b"\x80\0\0\x22" + info, [], None
    head = sound_head(rate, {8: "pcm_u8", 16: "pcm_s16le"}[bits], 1, bits // 8)
    for number, value in enumerate(blocks):
        start = b"\xff\xf8" + bytes([code << 4, 0, number])
        start += bytes([crc(8, 0x07, start)]) + b"\0" + value.to_bytes(bits // 8, "big", signed=True)
        check = crc(16, 0x8005, start)
        if number == damaged:
            check, fault = check ^ 1, len(body)
        body += start + check.to_bytes(2, "big")
        sample = bytes([value + 128]) if bits == 8 else value.to_bytes(2, "little", signed=True)
        if fault is None:
            items.append((number * block, block, sample * block))
    return Input(f"{name}.flac", body, Stream(head, items, WHOLE if fault is None else BROKEN, fault))


# ---- cuts


def end_of(item):
    return item[0] + item[1]


def part(item, head, first, last):
    """The part of an item from one time to before another: of sound its samples, of pictures the item where it starts there."""
    pts, duration, body = item
    if not head.block:
        return item if first <= pts < last else None
    from_, to = max(pts, first), min(pts + duration, last)
    return (from_, to - from_, body[(from_ - pts) * head.block:(to - pts) * head.block]) if from_ < to else None


def trimmed(stream, first, last):
    """What has a pts from `first` to before `last`. It is whole where the stream is, at the first picture at or past the end and at the
    first sound that ends at or past it; at once where the end is 0."""
    last = float("inf") if last is None else last
    closes = [item for item in stream.items if (end_of(item) if stream.head.block else item[0]) >= last]
    items = [kept for item in stream.items if (kept := part(item, stream.head, first, last))]
    return stream._replace(items=items, mark=WHOLE if closes or last == 0 else stream.mark)


def units(seconds, head):
    return None if seconds is None else ceil(Fraction(seconds) / head.base)


def cut(stream, start="0", length=None):
    """-ss and -t: what has a pts from the start on, and the start is taken from each; of that what lies before the length."""
    first = units(start, stream.head)
    later = trimmed(stream, first, None)
    return trimmed(later._replace(items=[(pts - first, *rest) for pts, *rest in later.items]), 0, units(length, stream.head))


def trim(stream, start="0", end=None):
    return trimmed(stream, units(start, stream.head), units(end, stream.head))


# ---- the streams of an output together


def shortest(streams):
    """An item is kept where every other stream has an item that ends after its start. A stream is whole where each of its items is kept,
    or starts at or after the end of some whole stream, and it is whole, or has an item that does. One without items ends at 0."""
    def end(stream):
        return end_of(stream.items[-1]) * stream.head.base if stream.items else 0

    over, made = [end(stream) for stream in streams if stream.mark == WHOLE], []
    for number, stream in enumerate(streams):
        starts = [item[0] * stream.head.base for item in stream.items]
        others = [other for at, other in enumerate(streams) if at != number]
        kept = [all(any(end_of(item) * other.head.base > start for item in other.items) for other in others) for start in starts]
        past = [any(start >= e for e in over) for start in starts]
        is_whole = all(k or p for k, p in zip(kept, past)) and (stream.mark == WHOLE or any(past))
        made.append(stream._replace(items=[item for item, k in zip(stream.items, kept) if k], mark=WHOLE if is_whole else BROKEN))
    return made


def merged(streams):
    """All packets by time, then stream, then place, as far as each other stream that isn't whole has one behind."""
    order = sorted((item[0] * stream.head.base, number, at) for number, stream in enumerate(streams) for at, item in enumerate(stream.items))
    last = {number: max((key for key in order if key[1] == number), default=None) for number in range(len(streams))}
    for place, key in enumerate(order):
        waits = [n for n, stream in enumerate(streams) if n != key[1] and stream.mark != WHOLE and (last[n] is None or last[n] < key)]
        if waits:
            return order[:place]
    return order


def framehash(streams, digest="SHA256"):
    lines = ["#format: frame checksums", "#version: 2", f"#hash: {digest}"]
    for number, stream in enumerate(streams):
        lines += ["#" + line.format(number) for line in stream.head.lines]
    lines.append("#stream#, dts,        pts, duration,     size, hash")
    for _, number, at in merged(streams):
        pts, duration, body = streams[number].items[at]
        lines.append(f"{number}, {pts:10d}, {pts:10d}, {duration:8d}, {len(body):8d}, {hashlib.new(digest, body).hexdigest()}")
    return "".join(line + "\n" for line in lines)


def wav_files(stream, channels=1):
    """The finished file and what is written before it is finished, where the stream is whole."""
    body = b"".join(item[2] for item in stream.items)
    rate, bits = stream.head.base.denominator, 8 * stream.head.block // channels
    pad = bytes(len(body) % 2)
    return wav_head(channels, rate, bits, len(body)) + body + pad, wav_head(channels, rate, bits, 0, 0) + body + pad


# ---- rows


def escaped(text):
    return text.replace("\\", "\\\\").replace("\n", "\\n")


class Row:
    """A command over inputs, and what its outputs hold: (name, streams) of framehashes."""

    def __init__(self, title, inputs, words, *outputs):
        self.title, self.words, self.outputs = title, words, outputs
        self.inputs = list({each.name: each for each in inputs}.values())

    def text(self):
        lines = [f"row {self.title}", *(each.line() for each in self.inputs), f"run {self.words}"]
        faults = [(number, fault) for number, each in enumerate(self.inputs) if (fault := each.stream.fault) is not None]
        assert len(faults) < 2, self.title
        broken = any(stream.mark == BROKEN for _, streams in self.outputs for stream in streams)
        held = [(name, escaped(framehash(streams))) for name, streams in self.outputs]
        fine = ["quiet", *(f"holds-text {name} {text}" for name, text in held)]
        if not faults:
            return "\n".join([*lines, "status 0", *fine]) + "\n"
        number, offset = faults[0]
        damaged = [f"line ffmpeg: input {number}: damaged at offset {offset}", *(f"front-text {name} {text}" for name, text in held)]
        if broken:
            return "\n".join([*lines, "status 4", *damaged]) + "\n"
        return "\n".join([*lines, "status 0 or 4", *(f"if 0 {line}" for line in fine), *(f"if 4 {line}" for line in damaged)]) + "\n"
