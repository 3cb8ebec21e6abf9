#!/usr/bin/env python3
"""Writes the input of a speed comparison to standard output: signals.py KIND CODE ROUNDS [CHUNK [OFFSET]]

KIND is a key of KINDS below, CODE a rate code (1 to 5), ROUNDS how often a program is to feed the
samples to its meter, CHUNK the length of a chunk, 4096 where it is left out, OFFSET the offset that
the meter is opened with, 0 where it is left out. How many samples change the band of the envelope,
which is what decides the cost of counting by runs, is told on standard error. The same arguments
always give the same bytes.
"""
import math
import random
import struct
import sys

SAMPLES = 32768
FULL_SCALE = 32768
LARGEST = 32767
SPEEDS = {1: 694, 2: 8000, 3: 16000, 4: 32000, 5: 48000}
SMOOTHINGS = {1: 49174, 2: 4360, 3: 2182, 4: 1092, 5: 728}


def ratio(decibels):
    return 10 ** (decibels / 20)


def syllable(chance, speed):
    """A consonant of noise that runs into a vowel of gliding harmonics, under one smooth arch."""
    length = int(speed * chance.uniform(0.12, 0.22))
    pitch = chance.uniform(100, 160)
    loudness = chance.uniform(0.4, 1)
    phase = 0.0
    sound = []
    for i in range(length):
        part = i / length
        phase += 2 * math.pi * pitch * (1.1 - 0.2 * part) / speed
        vowel = sum(math.sin(phase * k) / k for k in (1, 2, 3, 5, 8) if pitch * k < speed / 2)
        noise = chance.gauss(0, 0.4)
        voiced = min(1, part * 4)
        arch = math.sin(math.pi * part)
        sound.append(loudness * arch * (voiced * vowel + (1 - voiced) * noise))
    return sound


def speech(chance, speed):
    """Spurts of two or three syllables, parted by pauses with a faint hiss of the line."""
    sound = []
    while len(sound) < SAMPLES:
        for _ in range(chance.randint(2, 3)):
            sound += syllable(chance, speed)
        sound += [0.0] * int(speed * chance.uniform(0.6, 1.0))
    sound = sound[:SAMPLES]
    scale = FULL_SCALE * ratio(-6) / max(abs(x) for x in sound)
    return [round(scale * x + chance.gauss(0, 3)) for x in sound]


def noise(chance, _speed):
    """White noise of -26 dBov."""
    rms = FULL_SCALE * ratio(-26)
    return [max(-LARGEST, min(LARGEST, round(chance.gauss(0, rms)))) for _ in range(SAMPLES)]


def silence(_chance, _speed):
    return [0] * SAMPLES


def worst(_chance, _speed):
    """Twice the highest threshold, nothing, and so on: the envelope crosses it at each sample.

    The mean size of the samples is the threshold, so both averages settle around it. With
    w = K / 2^20, an average passes w / (2 - w) of a swing that turns at each sample, so the envelope
    ends up swinging by (w / (2 - w))^2 of the threshold to either side. At 2^14 intervals that is
    more than three hundred times what rounding down takes from it, whatever the rate. No threshold
    costs more to fall below: all those under it are worked out anew.
    """
    return [-2 * 2**14, 0] * (SAMPLES // 2)


def extremes(chance, _speed):
    """Stretches of any samples below a random size, -32768 often among them. For checking only."""
    samples = []
    while len(samples) < SAMPLES:
        size = 2 ** chance.randint(0, 15)
        stretch = chance.randint(1, 2000)
        samples += [max(-FULL_SCALE, chance.randint(-size - size // 8, size - 1)) for _ in range(stretch)]
    return samples[:SAMPLES]


KINDS = {"speech": speech, "noise": noise, "silence": silence, "worst": worst, "extremes": extremes}


def bands(samples, k, offset):
    """For each sample, how many thresholds the envelope after it has reached."""
    p = q = 0
    for x in samples:
        p = (p * (2**20 - k) + abs(x - offset) * 2**24 * k) >> 20
        q = (q * (2**20 - k) + p * k) >> 20
        yield min(15, (q >> 24).bit_length())


def changes(samples, k, offset):
    """How many samples change the band in a first round and in a second."""
    band = 0
    changed = []
    for i, after in enumerate(bands(samples * 2, k, offset)):
        if i % len(samples) == 0:
            changed.append(0)
        changed[-1] += after != band
        band = after
    return changed


def main():
    kind, code, rounds = sys.argv[1], int(sys.argv[2]), int(sys.argv[3])
    chunk = int(sys.argv[4]) if len(sys.argv) > 4 else 4096
    offset = int(sys.argv[5]) if len(sys.argv) > 5 else 0
    samples = KINDS[kind](random.Random(56), SPEEDS[code])
    sys.stdout.buffer.write(struct.pack(f"<BHHh{SAMPLES}h", code, rounds, chunk, offset, *samples))
    first, second = (100 * count / SAMPLES for count in changes(samples, SMOOTHINGS[code], offset))
    print(f"{first:.3f} % of the samples change the band in the first round, {second:.3f} % in the next", file=sys.stderr)


main()
