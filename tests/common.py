"""What the scripts of this folder share: the program that they run, sounds to encode, and the count
of cases.

Python 3.8 or later, which the Rattle kit needs as well. Sounds are made from whole numbers and a
seed, so they are the same on each machine.
"""
import array
import operator
import os
import random
import shutil
import struct
import subprocess
import sys
import tempfile

TOP = os.path.dirname(os.path.dirname(os.path.realpath(__file__)))


def program():
    """The path of the program: that of the environment's MP3ENC, or else the one that bin/build proves and builds."""
    path = os.environ.get("MP3ENC")
    if not path:
        if subprocess.run([f"{TOP}/bin/build"], stdin=subprocess.DEVNULL).returncode:
            sys.exit(125)
        path = f"{TOP}/out/bin/mp3enc"
    path = os.path.realpath(path)
    if not os.access(path, os.X_OK):
        print(f"{os.path.basename(sys.argv[0])}: there is no program at {path}", file=sys.stderr)
        sys.exit(125)
    return path


def count_of_words(usage, default):
    """The one number that the words of the script may have, from 1 on."""
    words = sys.argv[1:] or [str(default)]
    if len(words) != 1 or not words[0].isdecimal() or int(words[0]) < 1:
        print(usage, file=sys.stderr)
        sys.exit(2)
    return int(words[0])


def with_files(parser):
    """The words of the script by this parser, where each file that they name is there."""
    options = parser.parse_args()
    lacking = [it for it in options.files if not os.path.isfile(it)]
    if lacking:
        parser.error(f"there is no file {lacking[0]}")
    return options


class Room:
    """A folder for files of this run, removed at its end."""

    def __init__(self):
        self.path = tempfile.mkdtemp(prefix="mp3enc-tests-")

    def __enter__(self):
        return self

    def __exit__(self, *_):
        shutil.rmtree(self.path, ignore_errors=True)

    def file(self, name, content):
        path = os.path.join(self.path, name)
        with open(path, "wb") as out:
            out.write(content)
        return path


class Cases:
    """Prints a line a case, and counts how many held."""

    def __init__(self):
        self.held = self.all = 0

    def case(self, name, why, told=""):
        """A case holds where there is no reason why it does not."""
        self.all += 1
        self.held += not why
        print(f"FAILED  {name}: {why}" if why else f"held    {name}{told and ': '}{told}", flush=True)

    def left(self, name, why):
        print(f"left    {name}: {why}", flush=True)

    def end(self):
        print(f"{self.held} of {self.all} held")
        return int(self.held < self.all)


def random_words(choose):
    """Random words for workers, ahead and guess, as far as the program takes them."""
    workers, ahead, guess = choose.randint(0, 16), choose.randint(1, 64), choose.randint(0, 3)
    return ["--workers", str(workers), "--ahead", str(ahead), "--guess", str(guess)]


def wav(channels, hz):
    """A WAV file of 16 bits of these channels, each a sequence of numbers, cut to the range of a sample."""
    samples = array.array("h", bytes(2 * len(channels) * len(channels[0])))
    for number, channel in enumerate(channels):
        samples[number :: len(channels)] = array.array("h", (max(-32768, min(32767, it)) for it in channel))
    if sys.byteorder == "big":
        samples.byteswap()
    data, step = samples.tobytes(), 2 * len(channels)
    head = struct.pack("<IHHIIHH", 16, 1, len(channels), hz, hz * step, step, 16)
    return b"RIFF" + struct.pack("<I", 36 + len(data)) + b"WAVEfmt " + head + b"data" + struct.pack("<I", len(data)) + data


def noise(count, seed, hz=44100, channels=2):
    """White noise at half of full scale: what costs an encoder most."""
    choose = random.Random(seed)
    return wav([[choose.getrandbits(15) - 16384 for _ in range(count)] for _ in range(channels)], hz)


def sparse(count, seed, hz=32000, channels=2):
    """Silence with a loud sample now and then, and at times a step that stays."""
    choose, made = random.Random(seed), []
    for _ in range(channels):
        level, channel = 0, []
        for _ in range(count):
            if choose.getrandbits(12) == 0:
                level = choose.getrandbits(14) - 8192
            channel.append(choose.getrandbits(16) - 32768 if choose.getrandbits(9) == 0 else level)
        made.append(channel)
    return wav(made, hz)


def voice(step, count, loudness, softening):
    """A note: a rounded wave with overtones, which dies away, of so many samples. step is 2^32 a period."""
    phase, level, made = 0, loudness << 16, array.array("i")
    for _ in range(count):
        phase = (phase + step) & 0xFFFFFFFF
        first, third = (phase >> 16) - 32768, (3 * phase >> 16 & 0xFFFF) - 32768
        wave = (first * (32768 - abs(first)) >> 13) + (third * (32768 - abs(third)) >> 15)
        made.append(wave * (level >> 16) >> 16)
        level -= level >> softening
    return made


def song(count, seed, hz=44100):
    """Music for a machine, in stereo: eight times a second two notes of 24 begin, left or right or
    between, and at every second of these a burst of noise."""
    choose, beat = random.Random(seed), hz // 8
    pitches = [110 * 2 ** (octave / 12) for octave in range(0, 48, 2)]
    notes = [[voice(int(it * 2**32 / hz), hz, loudness, 14) for loudness in (1500, 4000, 9000)] for it in pitches]
    hiss = [array.array("i", ((choose.getrandbits(13) - 4096) * (beat - k) // beat for k in range(beat))) for _ in range(8)]
    sides = [array.array("i", bytes(4 * (count + hz + beat))) for _ in range(2)]
    for at in range(0, count, beat):
        begun = [choose.choice(notes) for _ in range(2)]
        for note in begun:
            place = choose.randrange(3)
            for side, loudness in zip(sides, (place, 2 - place)):
                side[at : at + hz] = array.array("i", map(operator.add, side[at : at + hz], note[loudness]))
        if at // beat % 2 == 0:
            burst = choose.choice(hiss)
            for side in sides:
                side[at : at + beat] = array.array("i", map(operator.add, side[at : at + beat], burst))
    return wav([side[:count] for side in sides], hz)
