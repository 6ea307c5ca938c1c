#!/bin/sh
# Makes the captures and the disk files of the examples in the folder that is named, else here: with sox, or with Python where sox lacks.
set -e
here=$(cd "$(dirname "$0")" && pwd)
cd "${1:-.}"
if ! command -v sox >/dev/null; then
  exec python3 "$here/captures.py" .
fi

# The samples that are written out are little-endian numbers of 16 bits, as octal bytes.
mono() { sox -t raw -r 48000 -e signed -b 16 -c 1 - "$1"; }

# five samples: 1 2 3 4 5
printf '\001\000\002\000\003\000\004\000\005\000' | mono straight.capture.wav
# no sample: a metronome hears nothing, but each session has a capture
printf '' | mono metronome.capture.wav
# nor does a session of events
printf '' | mono notes.capture.wav
# 2,000 frames of two sines; -D leaves dither out
sox -D -n -r 48000 -c 2 -b 16 patch.capture.wav synth 2000s sine 440 sine 660 gain -3
# an impulse of 16384, nine frames of silence, and -3
{ printf '\000\100'; head -c 18 /dev/zero; printf '\375\377'; } | mono bench.capture.wav
# an impulse of 16000
printf '\200\076' | mono echo.capture.wav
# 600 frames of a sine
sox -D -n -r 48000 -c 1 -b 16 threads.capture.wav synth 600s sine 440 gain -3
# 1,000 frames of a sine, 700 of two and 400 of one of 24 bits: what is captured, the backing track and the bass
sox -D -n -r 48000 -c 1 -b 16 tracks.capture.wav synth 1000s sine 880 gain -9
sox -D -n -r 48000 -c 2 -b 16 tracks.disk0.wav synth 700s sine 330 sine 550 gain -3
sox -D -n -r 48000 -c 1 -b 24 tracks.disk1.wav synth 400s sine 110 gain -9
# 1,000 frames of six sines
sox -D -n -r 48000 -c 6 -b 24 periods.capture.wav synth 1000s sine 100 sine 200 sine 300 sine 400 sine 500 sine 600 gain -3
