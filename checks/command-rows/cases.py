"""Which rows there are of -shortest and of the worked examples, and what each command does in the words of `reader`."""

from reader import Row, cut, flac, framehash, shortest, trim, wav, wav_files, y4m

LETTERS = "abcdefghijklmnopqrstuvwxyzABCDEFGHIJKLMNOPQRSTUVWXYZ"


def letters(count, first=0):
    return [LETTERS[(first + number) % len(LETTERS)].encode() for number in range(count)]


def sound(name, rate, count, first=0):
    return wav(name, rate, bytes(97 + (first + number) % 26 for number in range(count)))


def films(name, rate, count, first=0, broken=False):
    return y4m(name, rate, letters(count, first), broken)


def both(inputs):
    return " ".join(f"-i {each.name}" for each in inputs)


def together(title, *inputs, before="", last=""):
    """Inputs beside each other, each mapped in order, under -shortest."""
    maps = " ".join(f"-map {number}" for number in range(len(inputs)))
    words = f"{before}{both(inputs)} {maps} -shortest {last}-c:a pcm_u8 -f framehash out"
    return Row(title, inputs, words, ("out", shortest([each.stream for each in inputs])))


def changed(title, inputs, words, *streams, rest=()):
    """The same of streams that were cut or trimmed before, and outputs without -shortest besides."""
    return Row(title, inputs, words, ("out", shortest(streams)), *rest)


HASHED = "-c:a pcm_u8 -f framehash"


def of_lengths():
    long, film = sound("s", 1000, 2500), films("v", "1:1", 2)
    yield together("a film of 2 s beside sound of three packets", long, film)
    yield together("a film of 3 s beside sound of 2.5 s: the last picture goes on behind the end", long, films("v", "1:1", 3))
    yield together("pictures every half second beside sound of 2.5 s: the one at its end is dropped", long, films("v", "2:1", 7))
    four = [long, films("v", "2:1", 7), sound("t", 100, 230), films("w", "10:1", 21, 5)]
    yield together("four streams", *four)
    yield together("four streams the other way round", *four[::-1])
    three, five = films("v", "25:1", 3), films("w", "25:1", 5, 9)
    sixteen = [three, five]
    words = f"{both(sixteen)} {'-map 0 -map 1 ' * 8}-shortest -f framehash out"
    yield Row("sixteen streams of two inputs", sixteen, words, ("out", shortest([three.stream, five.stream] * 8)))
    for size in (1, 2, 8, 1024):
        many = [sound("s", 8000, 1100), films("v", "1000:1", 60), films("w", "1000:1", 90, 7)]
        yield together(f"much that is dropped, over queues of {size}", *many, before=f"-thread_queue_size {size} ")
    yield together("one picture beside one sample", sound("s", 25, 1), films("v", "25:1", 1))


def of_other_outputs():
    tone, film = sound("s", 100, 12), films("v", "25:1", 6)
    pair = [tone, film]
    streams = [each.stream for each in pair]
    words = f"{both(pair)} -map 0 -map 1 -shortest {HASHED} out -map 0 -map 1 {HASHED} all"
    yield changed("an output beside it has all of both", pair, words, *streams, rest=[("all", streams)])
    words = f"{both(pair)} -map 0 -map 1 {HASHED} all -map 1 -map 0 -shortest {HASHED} out"
    yield changed("the output before it has all of both", pair, words, *streams[::-1], rest=[("all", streams)])
    short = films("w", "25:1", 2, 9)
    words = f"{both([*pair, short])} -map 0 -map 1 -shortest {HASHED} out -map 1 -map 2 -shortest {HASHED} two"
    yield changed("two outputs, each up to its own end", [*pair, short], words, *streams, rest=[("two", shortest([film.stream, short.stream]))])
    words = f"{both(pair)} -map 1 -shortest -f framehash one -map 0 -map 1 {HASHED} all"
    yield Row("one stream alone is as long as it is, and so is the next output", pair, words, ("one", [film.stream]), ("all", streams))


def of_changed_streams():
    tone, film = sound("s", 1000, 300), films("v", "25:1", 10)
    pair, maps = [tone, film], "-map 0 -map 1 -shortest"
    streams = tone.stream, film.stream
    yield changed("an input's length ends the other", pair, f"-t 0.1 -i s.wav -i v.y4m {maps} {HASHED} out", cut(tone.stream, "0", "0.1"), film.stream)
    yield changed("an input's start makes it the shorter", pair, f"-ss 0.25 -i s.wav -i v.y4m {maps} {HASHED} out", cut(tone.stream, "0.25"), film.stream)
    yield changed("both inputs are cut", pair, f"-ss 0.2 -i s.wav -ss 0.08 -t 0.2 -i v.y4m {maps} {HASHED} out", cut(tone.stream, "0.2"),
                  cut(film.stream, "0.08", "0.2"))
    each = [cut(stream, "0.04", "0.2") for stream in streams]
    yield changed("the output's cut comes first, on each", pair, f"-i s.wav -i v.y4m {maps} -ss 0.04 -t 0.2 {HASHED} out", *each)
    each = [cut(stream, "0.1") for stream in streams]
    yield changed("the output's start without a length", pair, f"-i s.wav -i v.y4m -ss 0.1 {maps} {HASHED} out", *each)
    yield changed("pictures from a later time on stay there", pair, f"-i s.wav -i v.y4m {maps} -vf trim=start=0.2 {HASHED} out", tone.stream,
                  trim(film.stream, "0.2"))
    yield changed("pictures that begin where the sound ends: none is kept", pair, f"-t 0.2 -i s.wav -i v.y4m {maps} -vf trim=start=0.2 {HASHED} out",
                  cut(tone.stream, "0", "0.2"), trim(film.stream, "0.2"))
    yield changed("sound from a later time on", pair, f"-i s.wav -i v.y4m {maps} -af atrim=start=0.15 {HASHED} out", trim(tone.stream, "0.15"), film.stream)
    yield changed("a graph gives two parts of one film", [film], f"-i v.y4m -lavfi [0:v]split[a][b];[b]trim=end=0.12[c] -map [a] -map [c] -shortest {HASHED} out",
                  film.stream, trim(film.stream, "0", "0.12"))
    yield changed("parts one after another of one film", [film],
                  f"-i v.y4m -lavfi [0:v]split[a][b];[a]trim=end=0.12[c];[b]trim=start=0.12[d] -map [c] -map [d] -shortest {HASHED} out",
                  trim(film.stream, "0", "0.12"), trim(film.stream, "0.12"))


def of_no_item():
    tone, film, none, silent = sound("s", 100, 20), films("v", "25:1", 5), films("n", "25:1", 0), sound("z", 100, 0)
    maps = "-map 0 -map 1 -shortest"
    yield together("no sound beside sound and pictures", tone, film, silent)
    yield together("no picture first", none, tone, film)
    yield together("three without an item", none, silent, films("m", "3:1", 0))
    yield changed("an input's length of 0", [tone, film], f"-i s.wav -t 0 -i v.y4m {maps} {HASHED} out", tone.stream, cut(film.stream, "0", "0"))
    yield changed("an input's start behind its end", [tone, film], f"-ss 5 -i s.wav -i v.y4m {maps} {HASHED} out", cut(tone.stream, "5"), film.stream)
    yield changed("the output's length is 0", [tone, film], f"-i s.wav -i v.y4m {maps} -t 0 {HASHED} out", *[cut(each.stream, "0", "0") for each in (tone, film)])
    yield changed("an end of 0 in a graph", [tone, film], f"-i s.wav -i v.y4m {maps} -vf trim=end=0 {HASHED} out", tone.stream, trim(film.stream, "0", "0"))
    yield changed("no sound is left by a graph", [tone, film], f"-i s.wav -i v.y4m {maps} -af atrim=start=1 {HASHED} out", trim(tone.stream, "1"), film.stream)
    beside = films("w", "25:1", 5, 9)
    words = f"{both([none, film, beside])} -map 0 -map 1 -shortest -f framehash out -map 1 -map 2 -shortest -f framehash two"
    yield changed("it ends its own output alone", [none, film, beside], words, none.stream, film.stream, rest=[("two", shortest([film.stream, beside.stream]))])


def of_broken():
    film, broken = films("v", "25:1", 6), lambda count: films("b", "25:1", count, 20, True)
    none, silent = films("n", "25:1", 0), sound("z", 100, 0)
    yield together("a broken stream is the shorter", film, broken(3))
    yield together("it is listed first", broken(3), film)
    yield together("it breaks where the other ends", film, broken(6))
    yield together("it breaks one picture behind the other's end", film, broken(7))
    yield together("it breaks far behind the other's end", broken(20), films("v", "25:1", 2))
    yield together("it breaks at its first picture", film, broken(0))
    yield together("it breaks at its first picture beside one without an item", broken(0), none)
    yield together("it breaks behind its first picture beside one without an item", broken(1), silent)
    yield together("of three the third is the shortest", broken(4), film, sound("s", 100, 9))
    yield together("of three the broken one is the shortest", sound("s", 100, 25), broken(2), film)
    yield together("a picture goes on behind the break", films("v", "3:1", 4), broken(12))
    blocks = [number for number in range(8)]
    yield together("sound that breaks before the pictures end", flac("b", 1000, 192, blocks, damaged=1), film)
    yield together("sound that breaks behind the pictures' end", flac("b", 1000, 192, blocks, damaged=3), film)
    yield together("sound that breaks and ends with the pictures", flac("b", 1000, 192, blocks, damaged=5), films("v", "25:1", 24))
    kept = films("b", "25:1", 5, 20, True)
    yield changed("its length ends before the break", [film, kept], f"-i v.y4m -t 0.12 -i b.y4m -map 0 -map 1 -shortest {HASHED} out", film.stream,
                  cut(kept.stream, "0", "0.12"))
    yield changed("its start is behind the break", [film, kept], f"-i v.y4m -ss 1 -i b.y4m -map 0 -map 1 -shortest {HASHED} out", film.stream,
                  cut(kept.stream, "1"))
    words = f"-i v.y4m -i b.y4m -map 0 -map 1 -shortest {HASHED} out -map 0 {HASHED} all"
    yield changed("an output beside it has all of the other", [film, kept], words, film.stream, kept.stream, rest=[("all", [film.stream])])


def of_ties():
    ntsc = films("v", "30000:1001", 40)
    for count, what in ((1001, "at its end a picture is dropped"), (1002, "the picture a sample before its end is kept"), (1000, "the picture a sample behind its end is dropped")):
        yield together(f"pictures at 30000:1001 and {count} samples of 1,000 a second: {what}", sound("s", 1000, count), ntsc)
    yield together("thirds and sevenths of a second: both at 1 s are dropped", films("v", "3:1", 4), films("w", "7:1", 9, 20), sound("s", 8, 8))
    yield together("24 and 25 pictures in the same second", films("v", "24:1", 24), films("w", "25:1", 25))
    yield together("24 and 25 pictures in a second, and one more of the first", films("v", "24:1", 25), films("w", "25:1", 25))
    yield together("24 and 25 pictures in a second, and one more of the second", films("v", "24:1", 24), films("w", "25:1", 26))
    yield together("441 samples, 480 samples and one picture in the same hundredth", wav("s", 44100, bytes(441)), wav("t", 48000, bytes(480)), films("v", "100:1", 3))
    yield together("pictures of two seconds and of half a second", films("v", "1:2", 3), films("w", "2:1", 12, 9), sound("s", 4, 16))
    third = films("v", "3:1", 1)
    yield together("less than a third of a second by a part of 10^9", third, films("w", "1000000000:333333333", 3, 9))
    yield together("more than a third of a second by a part of 10^9", third, films("w", "1000000000:333333334", 3, 9))
    yield together("a third of a second exactly", third, films("w", "999999999:333333333", 3, 9))
    yield together("bases whose product is above 2^61", films("v", "2147483647:2147483645", 3), films("w", "2147483645:2147483643", 3, 9))
    yield together("ends at 10^9 s", films("v", "1:500000000", 2), films("w", "1:1000000000", 1, 9))
    yield together("ends at 10^9 s and before it", films("v", "1:500000000", 2), films("w", "1:250000000", 3, 9))
    cut_film = films("v", "25:1", 10)
    yield changed("an end that a cut makes, and a tie with it", [sound("s", 1000, 120), cut_film],
                  f"-i s.wav -ss 0.04 -t 0.2 -i v.y4m -map 0 -map 1 -shortest {HASHED} out", sound("s", 1000, 120).stream, cut(cut_film.stream, "0.04", "0.2"))


# ---- worked examples


class Written(Row):
    """A row whose lines stand as they are."""

    def __init__(self, title, inputs, words, *lines):
        super().__init__(title, inputs, words)
        self.lines = lines

    def text(self):
        return "\n".join([f"row {self.title}", *(each.line() for each in self.inputs), f"run {self.words}", *self.lines]) + "\n"


def generated(seconds):
    """The two inputs of the generated run, and its one output."""
    wave = b"".join(((i * 37 + c * 101) % 4001 - 2000).to_bytes(2, "little", signed=True) for i in range(8000 * seconds) for c in range(2))
    tone = wav("a", 8000, wave, 2, 16)
    planes = [bytes((f * 7 + k * 3) % 256 for k in range(192)) for f in range(25 * seconds)]
    head = b"YUV4MPEG2 W16 H8 F25:1 Ip A1:1 C420jpeg\n"
    film = y4m("v", "25:1", planes, width=16, height=8, form="420jpeg")
    film = film._replace(body=head + b"".join(b"FRAME\n" + each for each in planes))
    wide = []
    for pts, duration, body in film.stream.items:
        rows = [body[at:at + 16] for at in range(0, 128, 16)] + [body[at:at + 8] for at in range(128, 192, 8)]
        wide.append((pts, duration, b"".join(row + row[::-1] for row in rows)))
    lines = [line.replace("16x8", "32x8").replace("0/1", "1/1") if "{}" in line else line for line in film.stream.head.lines]
    return tone, film, shortest([tone.stream, film.stream._replace(items=wide, head=film.stream.head._replace(lines=lines))])


def of_examples():
    ramp = wav("in", 8000, b"".join((i * 7 % 65536).to_bytes(2, "little") for i in range(24000)), 1, 16)
    finished, _ = wav_files(cut(ramp.stream, "0", "1"))
    yield Written("the first second of three", [ramp], "-thread_queue_size 1 -i in.wav -t 1 out.wav", "status 0", "quiet", f"holds out.wav {finished.hex()}")
    yield Written("a start behind the end", [ramp], "-ss 5 -i in.wav o.wav", "status 0", "quiet", f"holds o.wav {wav_files(cut(ramp.stream, '5'))[0].hex()}")
    damaged = flac("in", 8000, 4096, [100, -200, 300, -400, 500, -600], 16, damaged=4)
    finished, unpatched = (file.hex() for file in wav_files(cut(damaged.stream, "0", "1")))
    yield Written("a second before damage: all of it, or the damage", [damaged], "-i in.flac -t 1 out.wav", "status 0 or 4", "if 0 quiet", f"if 0 holds out.wav {finished}",
                  f"if 4 line ffmpeg: input 0: damaged at offset {damaged.stream.fault}", f"if 4 front out.wav {unpatched} {finished}")
    tone, film = sound("in", 1000, 2000), films("v", "25:1", 75)
    words = "-i in.wav -i v.y4m -map 0:a -map 1:v -shortest -c:a pcm_u8 -f framehash out"
    yield Row("sound of 2 s and 75 pictures: 50 are kept", [tone, film], words, ("out", shortest([tone.stream, film.stream])))
    three, one = wav("in", 8000, b"abc"), y4m("v", "25:1", [b"abc"], width=3)
    words = "-i in.wav -i v.y4m -map 0:a -map 1:v -c:a pcm_u8 -f framehash out"
    yield Row("equal times go by stream", [three, one], words, ("out", [three.stream, one.stream]))
    refused = [("an option that there isn't", "-i in.wav -bogus x", "word 2: unknown option"), ("99 seconds", "-i in.wav -t 1:99 o.wav", "word 3: bad time at 3"),
               ("no output", "-i in.wav", "word 2: no output"), ("a graph before an input", "-vf hflip -i v.y4m o.y4m", "word 0: misplaced option"),
               ("a word behind a generated run", "-selfrun 0 x", "word 0: misplaced option")]
    for title, words, line in refused:
        yield Written(title, [three, one], words, "status 1", f"line ffmpeg: {line}")
    job = "-i a.wav -i v.y4m -filter_complex [1:v]split[p][q];[q]hflip[r];[p][r]hstack[v] -map 0:a -map [v] -shortest -f framehash out"
    for seconds in (0, 1):
        tone, film, streams = generated(seconds)
        for size in (1, 2, 8, 1024) if seconds == 0 else (8,):
            text = framehash(streams)
            assert (len(text), text.count("\n")) == ((300, 14) if seconds == 0 else (3996, 47))
            yield Row(f"the generated job of {seconds} s, over queues of {size}", [tone, film], f"-thread_queue_size {size} {job}", ("out", streams))


def of_shortest():
    for kind in (of_lengths, of_other_outputs, of_changed_streams, of_no_item, of_broken, of_ties):
        yield from kind()


TABLES = {
    "unequal-streams": ("-shortest over streams of unequal length, without items, broken, and with ends that tie over other time bases.", of_shortest),
    "worked-examples": ("Worked examples of cuts, of -shortest, of words and of the generated job.", of_examples),
}
