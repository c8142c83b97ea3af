"""The instruments and drums of General MIDI by their names, and the usual velocities of dynamics."""

from __future__ import annotations

from typing import SupportsIndex, Union

from .pitch import Pitch
from .values import known, whole

#: The programs of General MIDI level 1, from program 0.
INSTRUMENTS = tuple(name.strip() for name in """
acoustic grand piano, bright acoustic piano, electric grand piano, honky-tonk piano, electric piano 1, electric piano 2,
harpsichord, clavinet, celesta, glockenspiel, music box, vibraphone, marimba, xylophone, tubular bells, dulcimer,
drawbar organ, percussive organ, rock organ, church organ, reed organ, accordion, harmonica, tango accordion,
acoustic guitar nylon, acoustic guitar steel, electric guitar jazz, electric guitar clean, electric guitar muted,
overdriven guitar, distortion guitar, guitar harmonics, acoustic bass, electric bass finger, electric bass pick,
fretless bass, slap bass 1, slap bass 2, synth bass 1, synth bass 2, violin, viola, cello, contrabass, tremolo strings,
pizzicato strings, orchestral harp, timpani, string ensemble 1, string ensemble 2, synth strings 1, synth strings 2,
choir aahs, voice oohs, synth voice, orchestra hit, trumpet, trombone, tuba, muted trumpet, french horn, brass section,
synth brass 1, synth brass 2, soprano sax, alto sax, tenor sax, baritone sax, oboe, english horn, bassoon, clarinet,
piccolo, flute, recorder, pan flute, blown bottle, shakuhachi, whistle, ocarina, lead square, lead sawtooth,
lead calliope, lead chiff, lead charang, lead voice, lead fifths, lead bass, pad new age, pad warm, pad polysynth,
pad choir, pad bowed, pad metallic, pad halo, pad sweep, fx rain, fx soundtrack, fx crystal, fx atmosphere,
fx brightness, fx goblins, fx echoes, fx sci-fi, sitar, banjo, shamisen, koto, kalimba, bagpipe, fiddle, shanai,
tinkle bell, agogo, steel drums, woodblock, taiko drum, melodic tom, synth drum, reverse cymbal, guitar fret noise,
breath noise, seashore, bird tweet, telephone ring, helicopter, applause, gunshot
""".replace("\n", " ").split(","))

#: The drums of General MIDI level 1, from key 35; they sound on channel 9.
DRUMS = {name.strip(): Pitch(35 + at) for at, name in enumerate("""
acoustic bass drum, bass drum, side stick, snare, hand clap, electric snare, low floor tom, closed hi-hat,
high floor tom, pedal hi-hat, low tom, open hi-hat, low-mid tom, high-mid tom, crash cymbal, high tom, ride cymbal,
chinese cymbal, ride bell, tambourine, splash cymbal, cowbell, crash cymbal 2, vibraslap, ride cymbal 2, high bongo,
low bongo, mute high conga, open high conga, low conga, high timbale, low timbale, high agogo, low agogo, cabasa,
maracas, short whistle, long whistle, short guiro, long guiro, claves, high woodblock, low woodblock, mute cuica,
open cuica, mute triangle, open triangle
""".replace("\n", " ").split(","))}

DRUM_CHANNEL = 9

#: Velocities of dynamics, as most notation programs have them.
DYNAMICS = {"ppp": 16, "pp": 33, "p": 49, "mp": 64, "mf": 80, "f": 96, "ff": 112, "fff": 127}


def instrument_number(name: Union[str, SupportsIndex]) -> int:
    """The program of an instrument by its name, counted from 0: the flute is 73."""
    if isinstance(name, str):
        return INSTRUMENTS.index(known("instrument", name, INSTRUMENTS))
    return whole("a program", name, 0, 127)


def drum(name: str) -> Pitch:
    """The key of a drum by its name."""
    return DRUMS[known("drum", name, DRUMS)]


def velocity(loudness: Union[str, SupportsIndex]) -> int:
    """The velocity of a dynamic, `pp` to `ff`, or the number itself, 1 to 127."""
    if isinstance(loudness, str):
        return DYNAMICS[known("dynamic", loudness, DYNAMICS)]
    return whole("a velocity", loudness, 1, 127)
