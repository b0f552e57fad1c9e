"""Which rows there are."""

import itertools
from fractions import Fraction

from filters import BROKEN, OPEN, WHOLE, Pictures, Sound, Stream, end_of
from rows import Row, at_end, fronts, picture, pictures, sound, steps

SECONDS = Fraction(1)
FORMATS = ("420", "422", "444", "mono")
ONE_INPUT = {
    "null": "", "trim": "", "setpts": "=PTS-STARTPTS", "crop": "", "pad": "", "hflip": "", "vflip": "", "fps": "", "split": "",
    "anull": "", "atrim": "", "asetpts": "=PTS-STARTPTS", "asplit": "", "channelsplit": "",
}
OF_SOUND = ("anull", "atrim", "asetpts", "asplit", "channelsplit", "join")


def film(width=4, height=4, form="420", base=Fraction(1, 25), aspect="1:1"):
    return Pictures(base, form, width, height, aspect)


def track(channels=2, bits=16, rate=8000, codec="pcm_s16le"):
    return Sound(Fraction(1, rate), rate, bits, channels, codec)


GREY = film(1, 1, "mono")
MONO = track(1)


def configure(text, heads):
    """A row that says only which heads come of it, or why it is refused; where it isn't, nothing is due and no input is spent."""
    shown = ", ".join(f"{'sound' if isinstance(h, Sound) else 'pictures'}" for h in heads) or "nothing"
    row = Row(f"{text} of {shown}", text, heads)
    return row.look() if row.function else row


# Refusals ------------------------------------------------------------------------------------------------------------------------------

def of_one_input():
    """Of each filter of one input the number of pads, then the kind, then the arguments in order."""
    rows = []
    for name, needed in ONE_INPUT.items():
        own, other = (track(), film()) if name in OF_SOUND else (film(), track())
        right = name + needed
        for heads in ([], [own, own], [other, other], [own] * 3):
            rows += [configure(right, heads), configure(f"{name}=bogus=1", heads)]
        rows += [configure(text, [other]) for text in (right, f"{name}=bogus=1", f"{name}=x")]
        rows += [configure(f"{name}{args}", [own]) for args in
                 ("", needed, "=bogus=1", "=Bogus=x", f"{needed or '='}:bogus=1", f"{needed or '='}:1:2:3:4:5", "=", "=1", "=a")]
    return rows


def with_arguments(heads, *texts):
    return [configure(text, heads) for text in texts]


def times_refused():
    rows = []
    for name, head in (("trim", film()), ("atrim", track())):
        rows += with_arguments([head], *(f"{name}={args}" for args in (
            "0", "1", "1:2", "start=1:end=2", "end=2:start=1", "1:end=2", "start=1:2", "1:2:3", "end=1:end=2", "end=x:end=2", "end=2:end=x",
            "start=", "end=", "end=-1", "end=+1", "end=1e3", "end=.5", "end=1.", "end=0.5", "end=1.5s", "end=200ms", "end=7us", "end=1m",
            "end=1 s", "end=00\\:01", "end=59\\:59", "end=60\\:00", "end=00\\:60", "end=1\\:1", "end=001\\:00", "end=1\\:2\\:3",
            "end=999999\\:59\\:59.999", "end=1000000\\:00\\:00", "end=1000000000", "end=1000000000.0000009", "end=1000000001",
            "end=1000000000000ms", "end=1000000000000001us", "end=1000000000000000us", "end=" + "0" * 63 + "1", "end=" + "0" * 64 + "1",
            "bogus=1:end=x", "end=x:bogus=1", "duration=1", "1:2:duration=3", "duration=0", "duration=x", "duration=", "duration=1:duration=x", "duration=1:2", "d=1", "start=1:bogus=1:end=x")))
    return rows


def sizes_refused():
    rows = []
    for form in FORMATS:
        head = film(9, 7, form)
        for name, names in (("crop", ("w", "out_w", "h", "out_h")), ("pad", ("w", "width", "h", "height"))):
            rows += with_arguments([head], *(f"{name}={args}" for args in (
                "9", "8", "10", "9:7", "9:8", "9:6", "0", "1", "9:0", "9:1", "2:2", "16:16", "2:2:7:5", "2:2:8:5", "2:2:7:6", "2:2:9:9",
                "16384:16384", "16385:7", "9:16385", "16386:7", "16384:7", "9:16384", "99999:99999", "12:12:3:5", "12:12:4:5", "12:12:2:4",
                "12:12:3:6", "12:12:4:6", "x=1", "y=1", "x=0:y=0", "w=3:h=3:x=1:y=1", "w=5:w=3", "w=x:w=3", "w=3:w=x", "w=3:5")))
            rows += with_arguments([head], *(f"{name}={key}={value}" for key in names for value in ("8", "00008", "000008", "", "-1", "8.0", " 8")))
        rows += with_arguments([head], "crop=width=2", "pad=out_w=20", "crop=height=2", "pad=out_h=20", "crop=4:4:0:0:0", "pad=20:20:0:0:0",
                               "crop=z=1:w=x", "crop=w=x:z=1", "pad=0:z=1", "pad=99999:x=x")
    for name in ("crop", "pad"):
        rows += with_arguments([film(16384, 16384, "mono")], name, f"{name}=16384:16384", f"{name}=16383:16384", f"{name}=16385:16384")
        rows += with_arguments([film(1, 1, "420")], name, f"{name}=1:1", f"{name}=2:2", f"{name}=3:3", f"{name}=1", f"{name}=h=1")
    return rows


def rates_refused():
    return with_arguments([film()], *(f"fps={args}" for args in (
        "1", "25", "30000/1001", "fps=50", "fps=50:fps=25", "fps=x:fps=25", "fps=25:fps=x", "0", "0/1", "1/0", "0/0", "1/1", "25/", "/25", "25/1/1",
        "-1", "1.5", "25 ", "0000000025", "00000000025", "25/0000000001", "25/00000000001", "2147483647", "2147483648", "1/2147483647", "1/2147483648",
        "4294967294/2", "4294967296/2", "9999999999/9999999999", "9999999999", "9999999999/5", "6442450941/3", "4294967295/2147483648", "2/4294967294",
        "25:25", "25:bogus=1", "bogus=1:fps=x", "fps=x:bogus=1")))


def outputs_refused():
    rows = []
    for name, head in (("split", film()), ("asplit", track())):
        rows += with_arguments([head], *(f"{name}={args}" for args in (
            "1", "2", "16", "outputs=1", "outputs=3", "outputs=16", "0", "17", "outputs=0", "outputs=17", "x", "", "00016", "000016", "-1", "1.0",
            "outputs=3:outputs=1", "outputs=x:outputs=1", "outputs=1:outputs=x", "2:2", "n=2", "outputs=2:3", "2:n=2")))
    rows += [configure("channelsplit", [track(channels)]) for channels in range(1, 9)]
    rows += [configure("channelsplit", [track(2, bits, 44100, codec)]) for bits, codec in ((8, "pcm_u8"), (24, "pcm_s24le"), (32, "pcm_s32le"), (20, "flac"))]
    return rows


def stacks_refused():
    rows = []
    for name in ("hstack", "vstack"):
        side = film()
        rows += [configure(name, heads) for heads in ([], [side], [side] * 2, [side] * 3, [track()] * 2, [track()] * 3, [side, track()], [track(), side])]
        for args in ("2", "3", "16", "inputs=2", "inputs=3", "inputs=16", "1", "17", "0", "x", "", "inputs=1", "inputs=17", "00002", "000002",
                     "inputs=3:inputs=2", "inputs=2:inputs=3", "inputs=x:inputs=2", "inputs=2:inputs=x", "2:0", "2:1", "2:2", "2:x", "2:00001",
                     "2:1:1", "shortest=0", "shortest=1", "shortest=2", "shortest=", "shortest=x:inputs=3", "shortest=1:inputs=3", "shortest=1:2",
                     "bogus=1", "bogus=1:inputs=3", "2:bogus=1", "inputs=3:2"):
            rows += [configure(f"{name}={args}", [side] * count) for count in (2, 3)]
        rows += [configure(f"{name}={count}", [side] * count) for count in (4, 15, 16, 17)]
        rows += [configure(f"{name}=17", [track()] * 2), configure(f"{name}=x", [track(), side]), configure(f"{name}=17", [side] * 17)]
        others = [film(4, 6), film(6, 4), film(4, 4, "444"), film(4, 4, "mono"), film(base=Fraction(1, 24)), film(base=Fraction(2, 50)),
                  film(aspect="2:1"), film(6, 6), film(3, 4), film(4, 3), film(3, 3)]
        rows += [configure(name, heads) for other in others for heads in ([side, other], [other, side], [other, other])]
        rows += [configure(f"{name}={args}", [side, film(4, 4, "444")]) for args in ("2", "17", "bogus=1")]
        rows += [configure(f"{name}=3", heads) for heads in ([side, side, film(3, 3)], [film(4, 4, "444"), side, side], [side, film(4, 4, "mono"), side])]
        for form in FORMATS:
            rows += [configure(name, [film(w, h, form), film(4, 4, form)]) for w, h in ((3, 4), (4, 3), (3, 3), (2, 4), (4, 2))]
            rows += [configure(name, [film(4, 4, form), film(w, h, form)]) for w, h in ((3, 4), (4, 3))]
        long = (lambda n: film(n, 1, "mono")) if name == "hstack" else (lambda n: film(1, n, "mono"))
        rows += [configure(name, [long(a), long(b)]) for a, b in ((8192, 8192), (8192, 8193), (16383, 1), (16384, 1), (16384, 16384))]
        rows += [configure(f"{name}=16", [long(1024)] * 16), configure(f"{name}=16", [long(1024)] * 15 + [long(1025)])]
        rows.append(configure(name, [film(16384, 2, "420", aspect="1:1"), film(16384, 2, "422")]))
    return rows


def concats_refused():
    rows = []
    kinds = ("", "v=1", "v=0", "a=1", "a=0", "v=1:a=0", "v=0:a=1", "v=1:a=1", "v=0:a=0", "a=1:v=0", "a=0:v=1", "a=1:v=1", "v=2", "a=2", "v=x:a=1", "a=1:v=2",
             "v=0:a=2", "v=1:a=2", "2:0:1", "2:1:0", "2:1:1", "2:0:0", "2:0", "2:1", "2:2", "2:1:2", "v=1:v=0:a=1", "a=1:v=1:v=0", "v=0:a=0:a=1",
             "v=00001:a=00000", "v=000001")
    for args in kinds:
        text = "concat=" + args if args else "concat"
        rows += [configure(text, heads) for heads in ([film()] * 2, [track()] * 2, [film(), track()], [track(), film()], [track()] * 3)]
    for args in ("1", "17", "0", "x", "", "n=1", "n=17", "n=2", "n=3", "n=16", "n=3:n=2", "n=2:n=3", "n=x:n=2", "n=2:n=x", "00002", "000002", "2:1:0:1",
                 "unsafe=1", "n=3:unsafe=1", "unsafe=1:n=3", "n=2:1", "v=1:a=1:unsafe=1", "unsafe=1:v=1:a=1", "v=1:unsafe=1:a=1", "n=17:v=0:a=1"):
        rows += [configure(f"concat={args}", heads) for heads in ([film()] * 2, [film()] * 3, [track()] * 2)]
    rows += [configure(f"concat={count}", [GREY] * count) for count in (2, 3, 15, 16, 17)]
    rows += [configure(f"concat={count}:0:1", [MONO] * count) for count in (2, 3, 15, 16, 17)]
    both = [film(), track()]
    for args in ("a=1", "v=1:a=1", "n=2:a=1", "a=1:n=2", "n=3:a=1", "n=8:a=1", "n=9:a=1", "a=1:n=9", "n=9:a=1:a=0", "2:1:1", "9:1:1", "a=1:unsafe=1", "a=1:n=x"):
        rows += [configure(f"concat={args}", heads) for heads in (both * 2, both * 3, both * 8, [film(), film(), track(), track()], [track(), film()] * 2, [film()] * 4, [film()] * 9)]
    rows += [configure("concat=a=1", heads) for heads in ([film(), track(), film(4, 6), track()], [film(), track(), film(), track(1)])]
    for other in (film(4, 6), film(6, 4), film(4, 4, "444"), film(base=Fraction(1, 24)), film(aspect="2:2"), film(aspect="0:0")):
        rows += [configure("concat", heads) for heads in ([film(), other], [other, film()], [other, other])]
        rows.append(configure("concat=3", [film(), film(), other]))
    for other in (track(1), track(2, 8), track(2, 16, 44100), track(codec="flac"), track(2, 16, 8000, "pcm_u8")):
        rows += [configure("concat=v=0:a=1", heads) for heads in ([track(), other], [other, track()], [other, other])]
    return rows


def joins_refused():
    rows = []
    rows += [configure("join", heads) for heads in ([], [track()], [track()] * 2, [track()] * 3, [film()] * 2, [film()] * 3, [track(), film()], [film(), track()])]
    for args in ("2", "3", "8", "inputs=2", "inputs=3", "1", "9", "0", "x", "", "inputs=1", "inputs=9", "00002", "000002", "inputs=3:inputs=2",
                 "inputs=x:inputs=2", "inputs=2:inputs=x", "2:2", "bogus=1", "2:bogus=1", "inputs=3:2", "bogus=1:inputs=3"):
        rows += [configure(f"join={args}", [MONO] * count) for count in (2, 3)]
    rows += [configure(f"join={count}", [MONO] * count) for count in range(2, 10)]
    for other in (track(2, 8), track(2, 16, 44100), track(1), track(codec="flac"), track(7), track(6), track(2, 24, 8000, "pcm_s24le")):
        rows += [configure("join", heads) for heads in ([track(), other], [other, track()], [other, other])]
    rows += [configure("join=9", [track(1, 8), track()]), configure("join=bogus=1", [track(1, 8), track()]), configure("join", [track(8, 8), track(8)])]
    rows += [configure("join", [track(4), track(4)]), configure("join", [track(4), track(5)]), configure("join=3", [track(4), track(2), track(2)])]
    rows += [configure("join=3", [track(4), track(2), track(3)]), configure("join", [track(8), track(1)]), configure("join", [track(7), track(1)])]
    return rows


def refusals():
    return (of_one_input() + times_refused() + sizes_refused() + rates_refused() + outputs_refused() + stacks_refused() + concats_refused()
            + joins_refused())


# Pictures ------------------------------------------------------------------------------------------------------------------------------

def whole_streams():
    rows = []
    for text in ("null", "hflip", "vflip", "setpts=PTS-STARTPTS", "setpts=expr=PTS-STARTPTS", "crop=2:2", "pad=6:6:2:2", "trim=0.08:0.2"):
        head = film()
        rows += fronts(text, text, head, pictures(head, [(1, 2), (2, 1), (4, 1), (7, 2)]))
        rows += [at_end(f"{text}, no item, {mark}", text, [head], [(0, mark)]) for mark in (WHOLE, BROKEN)]
    return rows


def turned():
    rows = []
    for name, form, (width, height) in itertools.product(("null", "hflip", "vflip"), FORMATS, ((1, 1), (2, 2), (5, 3), (3, 5), (6, 4), (17, 2), (33, 3))):
        head = film(width, height, form)
        rows.append(at_end(f"{name} of {form} {width}x{height}", name, [head], [(0, picture(head, 0, 1, 3)), (0, picture(head, 1, 1, 77)), (0, WHOLE)]))
    return rows


def cropped():
    rows = []
    for form in FORMATS:
        head = film(7, 5, form)
        for args in ("", "=2:2", "=3:3", "=1:1:6:4", "=2:2:0:0", "=2:2:4:2", "=2:2:5:3", "=7:5", "=6:4", "=5:3", "=4", "=h=2", "=x=1", "=2:2:3:1", "=4:4:1:0",
                     "=w=3:y=2"):
            rows.append(steps(f"crop{args} of {form} 7x5", f"crop{args}", [head], [(0, picture(head, 3, 2, 5)), (0, WHOLE)]))
    head = film(64, 4, "420")
    rows.append(at_end("a wide crop", "crop=40:2:10:2", [head], [(0, picture(head, 0, 1, 9)), (0, WHOLE)]))
    return rows


def padded():
    rows = []
    for form in FORMATS:
        head = film(5, 3, form)
        for args in ("", "=8:6", "=8:6:2:2", "=8:6:3:3", "=8:6:1:1", "=6:4", "=7:5:2:2", "=5:6:0:2", "=h=5:y=1", "=12:3:6", "=6:5:1", "=9:9:4:6"):
            row = Row(f"pad{args} of {form} 5x3", f"pad{args}", [head])
            rows.append(row.feed(0, picture(head, 3, 2, 5), WHOLE).look() if row.function else row)
    head = film(4, 2, "420")
    rows.append(at_end("a wide pad", "pad=60:4:30:2", [head], [(0, picture(head, 0, 1, 9)), (0, WHOLE)]))
    return rows


def ranges_of_pictures():
    rows = []
    head = film(2, 2, "mono")
    for base in (Fraction(1, 25), Fraction(1, 1), Fraction(1001, 30000), Fraction(1, 1000000)):
        own = head._replace(base=base)
        tick = int(base * 10 ** 6)
        for k in (0, 1, 2, 3):
            for off in (-1, 0, 1):
                us = k * tick + off
                if us < 0:
                    continue
                rows.append(steps(f"end {us}us, base {base}", f"trim=end={us}us", [own], [(0, i) for i in pictures(own, [(n, 1) for n in range(4)])] + [(0, WHOLE)]))
                rows.append(at_end(f"start {us}us, base {base}", f"trim={us}us", [own], [(0, i) for i in pictures(own, [(n, 1) for n in range(4)])] + [(0, WHOLE)]))
    four = pictures(head, [(2, 1), (3, 4), (6, 2), (9, 1)])
    for args in ("=0.12:0.24", "=0.24:0.12", "=0:0", "=end=0", "=0.12:0.12", "=start=1", "=end=1", "", "=0.08", "=0.2:10", "=0.16:0.2"):
        rows += fronts(f"trim{args}", f"trim{args}", head, four)
    for args in ("=duration=0.04", "=duration=0.041", "=duration=0.2", "=0.12:duration=0.16", "=0.1:duration=0.16", "=end=0:duration=0.04", "=end=0.28:duration=0.04",
                 "=start=1:duration=1", "=duration=0", "=end=0:duration=0", "=0.12:0.16:duration=0.12", "=0.12:0.36:duration=0.12", "=duration=9"):
        rows += fronts(f"trim{args}", f"trim{args}", head, four)
    for n in range(0, 10):
        rows.append(steps(f"trim for {n} ticks", f"trim=0.12:duration={n * 40}ms", [head], [(0, i) for i in four] + [(0, WHOLE)]))
    rows.append(Row("what comes behind the end of the output", "trim=end=0.04", [head]).feed(0, picture(head, 0, 1, 1), picture(head, 1, 1, 2)).look()
                .feed(0, picture(head, 2, 1, 3)).look().feed(0, BROKEN).look())
    return rows


def starts():
    rows = []
    for name, head, make in (("setpts", GREY, lambda t: pictures(GREY, [(t, 3), (t + 1, 5), (t + 100, 1)])),
                             ("asetpts", track(), lambda t: sound(track(), [3, 2, 4], t, 5))):
        for start in (0, 1, 2, 1000, 2 ** 33):
            rows += [steps(f"{name} of a stream from {start}", f"{name}=PTS-STARTPTS", [head], [(0, i) for i in make(start)] + [(0, mark)]) for mark in (WHOLE, BROKEN)]
        rows += fronts(name, f"{name}=PTS-STARTPTS", head, make(7))
    return rows


def split_rows():
    rows = []
    for name, head, items in (("split", film(), pictures(film(), [(0, 1), (1, 2), (4, 1)])), ("asplit", track(), sound(track(), [3, 1, 4], 10, 2))):
        rows += [steps(f"{name}={count}", f"{name}={count}", [head], [(0, i) for i in items] + [(0, mark)])
                 for count in (1, 2, 3, 16) for mark in (WHOLE, BROKEN)]
        rows += fronts(name, name, head, items)
        first, second, third = items
        rows.append(Row(f"{name}, an output stopped at once", name, [head]).stop(0).look().feed(0, first).look().feed(0, second, WHOLE).look())
        rows.append(Row(f"{name}, the last output stopped", name, [head]).feed(0, first).stop(1).look().feed(0, second).look().feed(0, BROKEN).look())
        rows.append(Row(f"{name}, stopped one after another", name + "=3", [head]).feed(0, first).look().stop(1).look().feed(0, second).stop(0).look()
                    .feed(0, third).look().stop(2).look().feed(0, WHOLE).look())
        rows.append(Row(f"{name}, all stopped", name + "=2", [head]).stop(0).stop(1).look().feed(0, first).look())
        rows.append(Row(f"{name}, pulled unevenly", name, [head]).feed(0, first, second).next(0).next(1).next(1).next(1).next(0).feed(0, third, WHOLE)
                    .next(1).next(0).next(0).next(0).next(1).next(1).look())
    return rows


def stopped():
    rows = []
    for name, needed in ONE_INPUT.items():
        head = track() if name in OF_SOUND else film()
        items = sound(head, [2, 3]) if name in OF_SOUND else pictures(head, [(0, 1), (1, 1)])
        row = Row(f"{name}, stopped before what was fed is pulled", name + needed, [head]).feed(0, items[0])
        for q in range(len(row.outs)):
            row.stop(q)
        rows.append(row.look().feed(0, items[1]).look().feed(0, WHOLE).look())
    return rows


def of_pictures():
    return whole_streams() + turned() + cropped() + padded() + ranges_of_pictures() + starts() + split_rows() + stopped()


# Pictures at an even rate --------------------------------------------------------------------------------------------------------------

RATIOS = ("1", "10", "12", "24", "24000/1001", "25", "30000/1001", "30", "50", "60", "7/3", "1/2")


def even_rates():
    rows = []
    streams = (([(0, 1), (1, 1), (2, 1), (3, 1), (4, 1)], "one each tick"), ([(0, 3), (3, 2), (5, 1), (9, 4)], "gaps"), ([(2, 5), (4, 5), (7, 2)], "a late start"))
    for ratio in RATIOS:
        for times, what in streams:
            items = pictures(GREY, times)
            for mark in (WHOLE, BROKEN):
                rows.append(steps(f"fps={ratio}, {what}, {mark}", f"fps={ratio}", [GREY], [(0, i) for i in items] + [(0, mark)]))
    for ratio in ("10", "25", "60"):
        rows += fronts(f"fps={ratio}", f"fps={ratio}", GREY, pictures(GREY, [(1, 1), (2, 3), (6, 1), (8, 2)]))
    rows += fronts("fps without a ratio", "fps", film(2, 2, base=Fraction(1, 10)), pictures(film(2, 2), [(0, 1), (2, 1), (3, 2)]))
    for base, ratio in ((Fraction(1, 3), "2"), (Fraction(1, 2), "1"), (Fraction(1, 4), "2"), (Fraction(3, 7), "5/3"), (Fraction(1001, 30000), "25")):
        head = GREY._replace(base=base)
        rows += [steps(f"fps={ratio} of base {base}, halves, from {start}", f"fps={ratio}", [head],
                       [(0, i) for i in pictures(head, [(start + n, 1) for n in range(5)])] + [(0, WHOLE)])
                 for start in (0, 1, 2)]
    head = film(4, 2, "420")
    rows.append(steps("one picture five times", "fps=125", [head], [(0, picture(head, 0, 1, 5)), (0, WHOLE)]))
    rows.append(Row("numbers pulled one by one", "fps=100", [GREY]).feed(0, picture(GREY, 0, 1, 8), picture(GREY, 1, 1, 9)).next(0).next(0).spent().next(0).next(0)
                .next(0).feed(0, WHOLE).next(0).spent().next(0).next(0).next(0).next(0).next(0).look())
    rows.append(Row("stopped among its numbers", "fps=100", [GREY]).feed(0, picture(GREY, 0, 1, 8), picture(GREY, 1, 1, 9)).next(0).stop(0).look()
                .feed(0, picture(GREY, 2, 1, 3)).look())
    seconds = GREY._replace(base=SECONDS)
    for last in (999_999_998, 999_999_999):
        rows.append(steps(f"up to second {last + 1}", "fps=1", [seconds], [(0, picture(seconds, last, 1, 1)), (0, WHOLE)]))
    thirds = GREY._replace(base=Fraction(2, 3))
    rows.append(steps("a number that ends past the last second", "fps=1", [thirds],
                      [(0, i) for i in pictures(thirds, [(1_499_999_998, 1), (1_499_999_999, 1)])] + [(0, WHOLE)]))
    return rows


# Sound ---------------------------------------------------------------------------------------------------------------------------------

def of_sound():
    rows = []
    head = track()
    items = sound(head, [4, 3, 1, 5], 2, 1)
    for text in ("anull", "asetpts=PTS-STARTPTS", "atrim", "channelsplit"):
        rows += fronts(text, text, head, items)
    for args in ("=0.0005:0.0015", "=end=0.001", "=0.001", "=end=0", "=0.0005:0.000625", "=0.00075:0.00075", "=0.002:0.001", "=1", "=end=0.00025", "=end=0.0005"):
        rows += fronts(f"atrim{args}", f"atrim{args}", head, items)
    for args in ("=duration=0.0005", "=0.0005:duration=0.0005", "=end=0:duration=0.001", "=end=0.001:duration=0.00025", "=1:duration=1", "=duration=0", "=end=0:duration=0",
                 "=0.000875:duration=0.000125", "=0.001:0.0015:duration=0.000126", "=0.001:0.0012:duration=0.001"):
        rows += fronts(f"atrim{args}", f"atrim{args}", head, items)
    for n in range(0, 20):
        order = [(0, i) for i in items] + [(0, WHOLE)]
        rows.append(steps(f"atrim for {n} samples", f"atrim=duration={n * 125}us", [head], order))
        rows.append(steps(f"atrim for 4 samples from sample {n}", f"atrim={n * 125}us:duration=0.0005", [head], order))
        rows.append(steps(f"atrim to sample {n}", f"atrim=end={n * 125}us", [head], order))
        rows.append(at_end(f"atrim from sample {n}", f"atrim={n * 125}us", [head], order))
        rows.append(at_end(f"atrim of sample {n} alone", f"atrim={n * 125}us:{n * 125 + 1}us", [head], order))
    rows.append(Row("what comes behind the end of the sound", "atrim=end=0.0005", [head]).feed(0, items[0]).look().feed(0, items[1]).look().feed(0, BROKEN).look())
    for rate, us in ((44100, 1), (44100, 22), (44100, 23), (44100, 45), (44100, 46), (48000, 20), (48000, 21), (48000, 1000)):
        own = track(1, 16, rate)
        rows.append(at_end(f"atrim to {us}us at {rate}", f"atrim=end={us}us", [own], [(0, i) for i in sound(own, [60])] + [(0, WHOLE)]))
    for channels in range(1, 9):
        own = track(channels)
        for mark in (WHOLE, BROKEN):
            rows.append(steps(f"channelsplit of {channels}, {mark}", "channelsplit", [own], [(0, i) for i in sound(own, [3, 1, 2], 5, 4)] + [(0, mark)]))
        row = Row(f"channelsplit of {channels}, all but the last stopped", "channelsplit", [own]).feed(0, sound(own, [2])[0])
        for q in range(channels - 1):
            row.stop(q)
        rows.append(row.look().feed(0, sound(own, [2], 2)[0]).look().feed(0, WHOLE).look())
        row = Row(f"channelsplit of {channels}, the first stopped", "channelsplit", [own]).stop(0)
        rows.append(row.look().feed(0, sound(own, [2])[0]).look().feed(0, WHOLE).look())
    return rows


# Stacks --------------------------------------------------------------------------------------------------------------------------------

def in_time(streams):
    """The items of all inputs in the order of their times, then their closings."""
    items = sorted(((item[0], port, item) for port, (items, _) in enumerate(streams) for item in items), key=lambda one: one[:2])
    return [(port, item) for _, port, item in items] + closings(streams)


def closings(streams):
    return [(port, mark) for port, (_, mark) in enumerate(streams) if mark != OPEN]


def by_port(streams):
    return [(port, item) for port, (items, mark) in enumerate(streams) for item in list(items) + ([mark] if mark != OPEN else [])]


def by_turns(streams):
    lists = [list(items) + ([mark] if mark != OPEN else []) for items, mark in streams]
    return [(port, items[n]) for n in range(max(map(len, lists), default=0)) for port, items in enumerate(lists) if n < len(items)]


ORDERS = {"in time": in_time, "one input after another": by_port, "by turns": by_turns, "the last input first": lambda streams: by_port(streams)[::-1]}


def last_first(streams):
    """The last input first, each in its own order."""
    return [step for port in range(len(streams) - 1, -1, -1) for step in by_port(streams) if step[0] == port]


ORDERS["the last input first"] = last_first


def stack_marks():
    """Two inputs of different times, as far as each number of items, with each mark."""
    rows = []
    first, second = pictures(GREY, [(0, 2), (2, 1), (5, 2)], 10), pictures(GREY, [(1, 2), (2, 2), (6, 1)], 50)
    for shortest in (0, 1):
        for m, n in itertools.product(range(4), range(4)):
            for a, b in itertools.product((OPEN, WHOLE, BROKEN), repeat=2):
                streams = [(first[:m], a), (second[:n], b)]
                rows.append(at_end(f"hstack, shortest {shortest}: {m} {a}, {n} {b}", f"hstack=2:{shortest}", [GREY, GREY], by_port(streams)))
    return rows


def stack_orders():
    rows = []
    head = film(2, 2)
    streams = [(pictures(head, [(0, 2), (2, 1), (3, 4), (8, 1)], 1), WHOLE), (pictures(head, [(1, 1), (3, 1), (6, 2)], 40), WHOLE), (pictures(head, [(0, 9)], 90), WHOLE)]
    for name, shortest, count in itertools.product(("hstack", "vstack"), (0, 1), (2, 3)):
        for what, order in ORDERS.items():
            rows.append(steps(f"{name} of {count}, shortest {shortest}, {what}", f"{name}={count}:{shortest}", [head] * count, order(streams[:count])))
    for name in ("hstack", "vstack"):
        for broken in range(3):
            marks = [BROKEN if p == broken else WHOLE for p in range(3)]
            for shortest in (0, 1):
                for what in ("in time", "by turns", "the last input first"):
                    order = ORDERS[what]([(items, mark) for (items, _), mark in zip(streams, marks)])
                    rows.append(steps(f"{name}, input {broken} broken, shortest {shortest}, {what}", f"{name}=3:{shortest}", [head] * 3, order))
    return rows


def stack_three():
    """Three inputs, each of up to two items, with each mark."""
    rows = []
    items = [pictures(GREY, [(0, 1), (2, 2)], 10), pictures(GREY, [(1, 1), (2, 1)], 50), pictures(GREY, [(0, 3), (3, 1)], 90)]
    for number, (counts, marks) in enumerate(itertools.product(itertools.product(range(3), repeat=3), itertools.product((OPEN, WHOLE, BROKEN), repeat=3))):
        if number % 3 == sum(counts) % 3:
            streams = [(own[:count], mark) for own, count, mark in zip(items, counts, marks)]
            shortest = number // 3 % 2
            title = f"hstack of 3, shortest {shortest}: " + ", ".join(f"{count} {mark}" for count, mark in zip(counts, marks))
            rows.append(at_end(title, f"hstack=3:{shortest}", [GREY] * 3, last_first(streams)))
    return rows


def stack_shapes():
    rows = []
    for name, form in itertools.product(("hstack", "vstack"), FORMATS):
        for sides in (((2, 2), (2, 2)), ((4, 4), (3, 4)), ((4, 4), (4, 3)), ((2, 4), (4, 4), (2, 4)), ((4, 2), (4, 4), (4, 1)), ((6, 4), (1, 4)), ((1, 1), (1, 1)),
                      ((3, 3), (3, 3)), ((2, 3), (5, 3)), ((3, 2), (3, 5))):
            heads = [film(w, h, form, aspect=f"{n + 1}:2") for n, (w, h) in enumerate(sides)]
            row = Row(f"{name} of {form} {' '.join(f'{w}x{h}' for w, h in sides)}", f"{name}={len(sides)}", heads)
            if row.function:
                for port, head in enumerate(heads):
                    row.feed(port, picture(head, 0, 1, 1 + 70 * port), WHOLE)
                row.look()
            rows.append(row)
    for count in (4, 8, 15, 16):
        for name in ("hstack", "vstack"):
            rows.append(at_end(f"{name} of {count}", f"{name}={count}", [GREY] * count,
                               in_time([(pictures(GREY, [(p % 3, 1), (3 + p % 2, 2)], 5 * p), WHOLE) for p in range(count)])))
    return rows


def stack_edges():
    rows = []
    one, two = pictures(GREY, [(0, 2), (2, 2)], 1), pictures(GREY, [(0, 1), (3, 4)], 5)
    for shortest in (0, 1):
        text = f"hstack=2:{shortest}"
        rows.append(steps(f"an input without items, shortest {shortest}", text, [GREY] * 2, [(0, one[0]), (1, WHOLE), (0, one[1]), (0, WHOLE)]))
        rows.append(steps(f"the first input without items, shortest {shortest}", text, [GREY] * 2, [(1, two[0]), (0, WHOLE), (1, two[1]), (1, BROKEN)]))
        rows.append(steps(f"both without items, shortest {shortest}", text, [GREY] * 2, [(0, WHOLE), (1, WHOLE)]))
        rows.append(steps(f"both broken at once, shortest {shortest}", text, [GREY] * 2, [(0, BROKEN), (1, BROKEN)]))
        rows.append(steps(f"one broken at once, one without items, shortest {shortest}", text, [GREY] * 2, [(0, BROKEN), (1, WHOLE)]))
        rows.append(steps(f"one broken at once, one with items, shortest {shortest}", text, [GREY] * 2, [(0, BROKEN), (1, two[0]), (1, two[1]), (1, WHOLE)]))
        rows.append(steps(f"broken, and the other passes it, shortest {shortest}", text, [GREY] * 2,
                          [(0, one[0]), (0, BROKEN), (1, two[0]), (1, two[1]), (1, WHOLE)]))
        rows.append(Row(f"stopped, shortest {shortest}", text, [GREY] * 2).feed(0, one[0]).feed(1, two[0]).stop(0).look().feed(0, one[1], WHOLE).look()
                    .feed(1, WHOLE).look())
        rows.append(Row(f"one picture at a time, shortest {shortest}", text, [GREY] * 2).feed(0, one[0], one[1], WHOLE).feed(1, two[0], two[1], WHOLE).spent()
                    .next(0).spent().next(0).next(0).spent().next(0).next(0).spent().look())
    far = GREY._replace(base=SECONDS)
    for duration in (1, 2):
        rows.append(steps(f"a picture that ends {duration} behind the last second but one", "hstack", [far] * 2,
                          [(0, picture(far, 999_999_999, 1, 1)), (1, picture(far, 999_999_999, 1, 2)), (0, WHOLE), (1, WHOLE)]))
    times = ([(0, 10)], [(0, 1), (3, 1), (9, 1), (10, 1), (12, 5)])
    for a, b in (times, times[::-1]):
        rows.append(steps("the end of the first input's picture", "hstack", [GREY] * 2, in_time([(pictures(GREY, a, 1), WHOLE), (pictures(GREY, b, 9), WHOLE)])))
    return rows


def stack_bases():
    """Inputs of different time bases, each with each mark, and bases that have none in common."""
    rows = []
    for one, two in ((Fraction(1, 25), Fraction(1, 30)), (Fraction(1001, 30000), Fraction(1, 25)), (Fraction(2, 3), Fraction(4, 9)), (Fraction(1), Fraction(1, 1000000))):
        heads = [GREY._replace(base=one), GREY._replace(base=two)]
        streams = [pictures(heads[0], [(0, 1), (1, 1), (2, 2)], 10), pictures(heads[1], [(0, 1), (1, 2), (3, 1)], 50)]
        for shortest, (a, b) in itertools.product((0, 1), itertools.product((OPEN, WHOLE, BROKEN), repeat=2)):
            for order in (by_port, last_first):
                rows.append(steps(f"hstack of bases {one} and {two}, shortest {shortest}: {a}, {b}, {'first' if order is by_port else 'last'} input first",
                                  f"hstack=2:{shortest}", heads, order([(streams[0], a), (streams[1], b)])))
    three = [GREY._replace(base=Fraction(1, rate)) for rate in (24, 25, 30)]
    for shortest in (0, 1):
        streams = [(pictures(head, [(0, 1), (1, 1), (2, 1)], 10 + 40 * n), WHOLE) for n, head in enumerate(three)]
        rows.append(steps(f"vstack of 24, 25 and 30 a second, shortest {shortest}", f"vstack=3:{shortest}", three, by_port(streams)))
    for bases in (("1/1000000", "1/1"), ("1/1000001", "1/1"), ("1/1000001", "1/1000001"), ("1/1000", "1/1001"), ("1/999", "1/1001"), ("1/97", "1/101", "1/102"),
                  ("1/100", "1/101", "1/103"), ("1/1000001", "1/1000001", "1/1"), ("2147483647/999999", "1/9")):
        rows.append(configure(f"hstack={len(bases)}", [GREY._replace(base=Fraction(base)) for base in bases]))
    return rows


def of_stacks():
    return stack_marks() + stack_three() + stack_orders() + stack_shapes() + stack_edges() + stack_bases()


# One after another ---------------------------------------------------------------------------------------------------------------------

def of_concat():
    rows = []
    films = [pictures(GREY, [(0, 1), (1, 2)], 10), pictures(GREY, [(3, 1), (4, 1)], 50), pictures(GREY, [(0, 7)], 90)]
    sounds = [sound(track(), [2, 3], 4, 1, 1), sound(track(), [1, 1], 0, 0, 100), sound(track(), [4], 7, 0, 200)]
    for m, n in itertools.product(range(3), range(3)):
        for a, b in itertools.product((OPEN, WHOLE, BROKEN), repeat=2):
            title = f"{m} {a}, {n} {b}"
            rows.append(at_end(f"concat: {title}", "concat", [GREY] * 2, by_port([(films[0][:m], a), (films[1][:n], b)])))
            rows.append(at_end(f"concat of sound: {title}", "concat=v=0:a=1", [track()] * 2, last_first([(sounds[0][:m], a), (sounds[1][:n], b)])))
    for marks in itertools.product((WHOLE, BROKEN), repeat=3):
        for what, order in ORDERS.items():
            for text, head, own in (("concat=3", GREY, films), ("concat=3:0:1", track(), sounds)):
                rows.append(steps(f"{text}, {', '.join(marks)}, {what}", text, [head] * 3, order([(items, mark) for items, mark in zip(own, marks)])))
    for empty in itertools.product((False, True), repeat=3):
        streams = [([] if gone else items, WHOLE) for items, gone in zip(films, empty)]
        rows.append(steps("concat=3, without items: " + ", ".join(str(p) for p in range(3) if empty[p]), "concat=3", [GREY] * 3, by_turns(streams)))
    for count in range(2, 17):
        rows.append(at_end(f"concat of {count}", f"concat={count}", [GREY] * count,
                           by_turns([(pictures(GREY, [(p % 4, 1 + p % 3), (5, 2)][:1 + p % 2], 5 * p), WHOLE) for p in range(count)])))
        rows.append(at_end(f"concat of {count} of sound", f"concat={count}:0:1", [MONO] * count,
                           last_first([(sound(MONO, [1 + p % 3, 2][:1 + p % 2], p % 5, p % 2, 100 * p), WHOLE) for p in range(count)])))
    rows.append(Row("concat, stopped", "concat", [GREY] * 2).feed(0, films[0][0]).stop(0).look().feed(0, WHOLE).look().feed(1, films[1][0], WHOLE).look())
    rows.append(Row("concat, pulled one by one", "concat", [GREY] * 2).feed(1, *films[1], WHOLE).look().feed(0, *films[0]).next(0).spent().feed(0, WHOLE).next(0).next(0)
                .spent().next(0).next(0).spent().next(0).look())
    rows.append(steps("the first segment isn't shifted", "concat", [GREY] * 2, by_port([(films[1], WHOLE), (films[0], WHOLE)])))
    seconds = GREY._replace(base=SECONDS)
    long = [picture(seconds, 0, 1_000_000_000, 1)]
    # An item that waits and passes a limit closes the output, also before it is given.
    rows.append(steps("a second segment past the last second", "concat", [seconds] * 2, by_port([(long, WHOLE), (long, WHOLE)])))
    half = [picture(seconds, 0, 500_000_000, 1)]
    rows.append(steps("two segments up to the last second", "concat", [seconds] * 2, by_port([(half, WHOLE), (half, WHOLE)])))
    rows.append(steps("a third segment past the last second", "concat=3", [seconds] * 3, by_port([(half, WHOLE), (half, WHOLE), (half, BROKEN)])))
    return rows


# Side by side --------------------------------------------------------------------------------------------------------------------------

def of_join():
    rows = []
    mono, stereo = track(1), track(2)
    for a, b in itertools.product((1022, 1023, 1024, 1025, 2047, 2048, 2049), repeat=2):
        rows.append(at_end(f"join of {a} and {b}", "join", [mono] * 2, by_port([(sound(mono, [a]), WHOLE), (sound(mono, [b], 0, 0, 9000), WHOLE)])))
    for a, b in itertools.product((0, 1, 1023, 1024, 1025, 2048), repeat=2):
        for p, q in itertools.product((OPEN, WHOLE, BROKEN), repeat=2):
            streams = [(sound(mono, [a] if a else []), p), (sound(stereo, [b] if b else [], 30), q)]
            rows.append(at_end(f"join: {a} {p}, {b} {q}", "join", [mono, stereo], last_first(streams)))
    pieces = [(sound(mono, [700, 400, 1, 900, 1500], 5), WHOLE), (sound(stereo, [1000, 24, 1, 1023, 1200], 9, 0, 3000), WHOLE),
              (sound(mono, [3000, 10], 0, 0, 7000), WHOLE)]
    for count, heads in ((2, [mono, stereo]), (3, [mono, stereo, mono])):
        for what, order in ORDERS.items():
            rows.append(steps(f"join of {count}, pieces, {what}", f"join={count}", heads, order(pieces[:count])))
            for broken in range(count):
                marks = [BROKEN if p == broken else WHOLE for p in range(count)]
                rows.append(steps(f"join of {count}, input {broken} broken, {what}", f"join={count}", heads,
                                  order([(items, mark) for (items, _), mark in zip(pieces, marks)])))
    for count in range(2, 9):
        rows.append(at_end(f"join of {count}", f"join={count}", [mono] * count, by_turns([(sound(mono, [3 + p, 2], 4 * p, 0, 100 * p), WHOLE) for p in range(count)])))
    for channels in ((1, 1), (2, 2), (1, 7), (7, 1), (4, 4), (2, 5), (1, 2, 3), (3, 2, 1), (1, 1, 2, 1, 1, 1, 1)):
        heads = [track(c) for c in channels]
        rows.append(steps(f"join of channels {' '.join(map(str, channels))}", f"join={len(channels)}", heads,
                          by_port([(sound(head, [4, 3], 11, 2, 10 * p), WHOLE) for p, head in enumerate(heads)])))
    rows.append(steps("the first pts is the first input's, gaps are passed over", "join", [mono] * 2,
                      in_time([(sound(mono, [1000, 1000, 1000], 77, 500), WHOLE), (sound(mono, [3000], 0, 0, 5000), WHOLE)])))
    rows.append(Row("join, stopped", "join", [mono] * 2).feed(0, sound(mono, [1500])[0]).feed(1, sound(mono, [1100])[0]).look().stop(0).look().feed(0, WHOLE).look())
    rows.append(Row("join, pulled one by one", "join", [mono] * 2).feed(0, sound(mono, [2100])[0], WHOLE).feed(1, sound(mono, [3000])[0]).spent().next(0).spent().next(0)
                .spent().next(0).spent().next(0).next(0).look())
    slow = Sound(SECONDS, 1, 16, 1, "pcm_s16le")
    for start in (999_998_975, 999_998_976, 999_998_977):
        rows.append(steps(f"a frame from {start} s on", "join", [slow] * 2, by_port([(sound(slow, [1025 if start < 999_998_976 else 1000_000_000 - start], start), WHOLE),
                                                                                        (sound(slow, [1030]), WHOLE)])))
    return rows


# The streams of one output ---------------------------------------------------------------------------------------------------------------

def of_shortest():
    rows = []
    fast = GREY._replace(base=Fraction(1, 50))
    first, second = pictures(GREY, [(0, 2), (2, 1), (3, 2)], 10), pictures(fast, [(1, 2), (4, 1), (5, 3)], 50)
    for m, n in itertools.product(range(4), range(4)):
        for a, b in itertools.product((OPEN, WHOLE, BROKEN), repeat=2):
            rows.append(at_end(f"shortest: {m} {a}, {n} {b}", "shortest", [GREY, fast], by_port([(first[:m], a), (second[:n], b)])))
    own = track(1, 16, 100)
    three = [GREY, own, fast]
    items = [first, sound(own, [3, 5, 8], 2), second]
    for number, (counts, marks) in enumerate(itertools.product(itertools.product(range(3), repeat=3), itertools.product((OPEN, WHOLE, BROKEN), repeat=3))):
        if number % 3 == sum(counts) % 3:
            title = "shortest of 3: " + ", ".join(f"{count} {mark}" for count, mark in zip(counts, marks))
            rows.append(at_end(title, "shortest", three, last_first([(own[:count], mark) for own, count, mark in zip(items, counts, marks)])))
    for marks in itertools.product((WHOLE, BROKEN), repeat=3):
        for what, order in ORDERS.items():
            rows.append(steps(f"shortest, {', '.join(marks)}, {what}", "shortest", three, order([(own, mark) for own, mark in zip(items, marks)])))
    for mark in (WHOLE, BROKEN):
        rows.append(steps(f"one stream, {mark}", "shortest", [GREY], [(0, item) for item in first] + [(0, mark)]))
        rows.append(steps(f"without items beside one, {mark}", "shortest", [GREY, GREY], [(0, first[0]), (1, mark), (0, first[1]), (0, WHOLE)]))
    rows.append(Row("a stream stopped", "shortest", [GREY, fast]).feed(0, first[0]).stop(0).look().feed(1, *second).look().feed(0, first[1], WHOLE).look()
                .feed(1, WHOLE).look())
    rows.append(Row("the other stopped", "shortest", [GREY, fast]).feed(0, *first).look().stop(1).look().feed(1, *second).look().feed(1, WHOLE).look()
                .feed(0, WHOLE).look())
    rows.append(Row("pulled unevenly", "shortest", [GREY, fast]).feed(0, *first).feed(1, *second, WHOLE).next(1).spent().next(0).next(1).next(0).next(0).next(1).next(1)
                .spent().feed(0, BROKEN).look())
    thirds, quarters = GREY._replace(base=Fraction(1, 3)), GREY._replace(base=Fraction(1, 4))
    for start in (3, 4, 5):
        rows.append(steps(f"exact times, from {start}", "shortest", [thirds, quarters], in_time([(pictures(thirds, [(0, 3)]), WHOLE),
                                                                                                 (pictures(quarters, [(0, 1), (start, 1)], 9), WHOLE)])))
    return rows


# Sources -------------------------------------------------------------------------------------------------------------------------------

def sources_refused():
    """The arguments of source filters: the head of the stream, or why they are refused."""
    own = {
        "color": ("", "=", "=d=1", "=duration=1", "=black:2x2:25:1", "=white:2x2:30000/1001:1", "=black:2x2:25", "=black:2x2:25:1:9", "=d=1:black", "=d=1:z=1",
                  "=z=1", "=z=1:c=red", "=c=red:z=1", "=D=1:d=1", "=d=x:d=1", "=d=1:d=x", "=c=white:c=black:d=1", "=color=white:size=3x5:rate=5:d=1",
                  "=c=Black:d=1", "=c=red:d=1", "=c=:d=1", "=c=0x000000:d=1", "=s=0x0", "=r=0", "=s=0x0:d=x", "=s=0x1:d=1", "=s=1x0:d=1", "=s=0x0:d=1",
                  "=s=16384x16384:d=1", "=s=16385x1:d=1", "=s=1x16385:d=1", "=s=99999x99999:d=1", "=s=00000x2:d=1", "=s=00001x00002:d=1", "=s=000001x2:d=1",
                  "=s=1x100000:d=1", "=s=2X2:d=1", "=s=2x:d=1", "=s=x2:d=1", "=s=2:d=1", "=s=2x2x2:d=1", "=s=-2x2:d=1", "=s=:d=1", "=s=x:d=1",
                  "=s=9x9:d=1:s=0x9", "=s=0x9:d=1:s=9x9", "=r=0:d=1", "=r=1/2147483647:d=1", "=r=1/2147483648:d=1", "=r=2147483647:d=1", "=r=2147483648:d=1",
                  "=r=4294967294/2:d=1", "=r=25.0:d=1", "=r=00000000025:d=1", "=d=-1", "=d=1000000000", "=d=1000000001", "=d=0", "=cl=mono:d=1"),
        "anullsrc": ("", "=", "=d=1", "=duration=1", "=mono:8000:1", "=stereo:1:1", "=mono:8000", "=mono:8000:1:9", "=d=1:mono", "=n=1024:d=1", "=z=1:r=0",
                     "=r=0:z=1", "=D=1", "=d=x:d=1", "=channel_layout=mono:sample_rate=5:d=1", "=cl=Mono:d=1", "=cl=5.1:d=1", "=cl=1:d=1", "=cl=:d=1",
                     "=r=0:d=1", "=r=1:d=1", "=r=2147483647:d=1", "=r=2147483648:d=1", "=r=9999999999:d=1", "=r=0000000001:d=1", "=r=00000000001:d=1",
                     "=r=8000/1:d=1", "=r=8000.0:d=1", "=r=-1:d=1", "=r=:d=1", "=d=0", "=d=1000000000", "=d=1000000001", "=s=2x2:d=1"),
    }
    return [Row(name + args, name + args, []) for name in own for args in own[name]]


def source_frames():
    rows = []
    sides = [f"color=s={width}x{height}:d=0.08" for width, height in ((1, 1), (2, 2), (3, 3), (3, 2), (2, 3), (1, 5), (17, 1))]
    rates = [f"color=s=1x1:r={rate}:d={d}" for rate in ("1", "25", "50/2", "1/2", "2/3", "30000/1001", "1000") for d in ("0", "1us", "40ms", "40001us", "80ms")]
    lengths = [f"anullsrc={layout}:1000:{ms}ms" for layout in ("mono", "stereo") for ms in (0, 1, 1023, 1024, 1025, 2048, 2049)]
    parts = [f"anullsrc=mono:{rate}:{us}us" for rate in (1, 8000, 44100) for us in (1, 125, 126, 1000000, 1000001)]
    texts = [*sides, "color=white:3x1:5:0.4", *rates, *lengths, *parts, "anullsrc=mono:2147483647:1us"]
    rows += [Row(f"all of {text}", text, []).gives(0).next(0) for text in texts]
    rows += [Row(f"one by one of {text}", text, []).next(0).next(0).next(0).gives(0) for text in (sides[1], rates[9], lengths[6])]
    return rows + long_sources()


def long_sources():
    """Sources of which a few frames are asked for: the others are never made."""
    few = (("color=s=1x1:r=2147483647:d=1000000000", lambda n: (n, 1, [[[16]], [[128]], [[128]]])),
           ("color=white:1x1:2/3:1000000000", lambda n: (n, 1, [[[235]], [[128]], [[128]]])),
           ("anullsrc=mono:2147483647:1000000000", lambda n: (1024 * n, [[0] * 1024])))
    rows = []
    for text, make in few:
        row = Row(f"the first of {text}", text, [])
        row.function = lambda streams: [Stream([make(n) for n in range(4)], OPEN)]
        rows.append(row.next(0).next(0).next(0))
    return rows


TABLES = {
    "refusals": ("Each filter's arguments and inputs: the heads of its outputs, or why it is refused, at each end of each range and in order.", refusals),
    "pictures": ("null, trim, setpts, crop, pad, hflip, vflip and split on small pictures.", of_pictures),
    "rates": ("fps at twelve ratios, and at halves, empty streams and the last second.", even_rates),
    "sound": ("anull, atrim, asetpts, asplit and channelsplit on short sounds.", of_sound),
    "stacks": ("hstack and vstack: inputs of different times, open, whole and broken, with shortest and without.", of_stacks),
    "concats": ("concat of 2 to 16 segments of pictures and of sound.", of_concat),
    "joins": ("join of unequal lengths, in frames of 1,024.", of_join),
    "shortest": ("The streams of one output, each up to the end of the shortest: `shortest` stands here for the part that does it.", of_shortest),
    "sources": ("color and anullsrc: the head of the stream or why they are refused, and the frames one after another.", lambda: sources_refused() + source_frames()),
}
