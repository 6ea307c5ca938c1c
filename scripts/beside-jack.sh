#!/usr/bin/env bash
# Static sessions, played by JACK 2 and checked by `jackd check` of Sagbufe. JACK runs with its dummy driver and in freewheel, so
# no sound card is needed; scripts/beside-jack.c makes the session's clients and connections by libjack, feeds the capture, and
# writes down what arrived at the playback. docs/BESIDE-JACK.md tells what this shows.
#
#   scripts/beside-jack.sh                     the session of this script, then the same with another gain in JACK's graph,
#                                              then $SESSIONS (10) sessions that are drawn by $SEED (0)
#   scripts/beside-jack.sh SESSION CAPTURE     a session of yours
#
# Needed are gcc, python3, and Debian's packages: apt-get install jackd2 libjack-jackd2-dev. Where one is missing, nothing is
# played, and "left out" is said. The gate does not run this script. Sagbufe's program is $PROGRAM, or the one that was built;
# JACK's is $JACK_SERVER, or the first `jackd` on the path or in /usr/bin that is JACK's.
set -u
given=()
for file; do
  given+=("$(realpath -m "$file")")
done
# shellcheck source=scripts/program.sh
. "$(dirname "$0")/program.sh" gcc python3
folder=$(mktemp -d)
server=
finish() {
  [ -n "$server" ] && kill "$server" 2> /dev/null && wait "$server" 2> /dev/null
  rm -rf "$folder"
}
trap finish EXIT
trap 'exit 1' INT TERM

left_out() {
  echo "beside-jack: left out, $1: apt-get install jackd2 libjack-jackd2-dev"
  exit 0
}
jack=
for it in "${JACK_SERVER:-}" $(type -ap jackd) /usr/bin/jackd; do
  [ -z "$jack" ] && [ -x "$it" ] && [[ $("$it" --version 2>&1) == *jackdmp* ]] && jack=$it
done
[ -n "$jack" ] || left_out "no JACK 2"
gcc -std=c11 -D_GNU_SOURCE -O2 -Wall -Wextra -o "$folder/client" scripts/beside-jack.c -ljack -lm -lpthread 2> "$folder/said" ||
  { [ -e /usr/include/jack/jack.h ] && cat "$folder/said" && exit 1; left_out "no headers of JACK"; }
export JACK_NO_AUDIO_RESERVATION=1 JACK_NO_START_SERVER=1 JACK_DEFAULT_SERVER=sagbufe$$

# play SESSION CAPTURE NAME: JACK plays the session, and leaves NAME.report and NAME.wav.
play() {
  local rate period
  rate=$(awk '$1 == "rate" { print $2; exit }' "$1")
  period=$(awk '$1 == "period" { print $2; exit }' "$1")
  # -S: the playback is that of the same cycle; without it JACK hands the playback on one period later.
  "$jack" -r -S -d dummy -r "$rate" -p "$period" -C 0 -P 0 > "$folder/server" 2>&1 &
  server=$!
  timeout 60 "$folder/client" "$1" "$2" "$3.wav" > "$3.report"
  local code=$?
  kill "$server"
  wait "$server" 2> /dev/null
  server=
  return $code
}

# beside SESSION CAPTURE [OTHER]: JACK plays OTHER, or the session, and the check asks whether that is the session.
beside() {
  play "${3:-$1}" "$2" "$folder/it" || { echo "beside-jack: JACK did not play ${3:-$1}"; return 1; }
  "$jackd" check "$1" "$2" "$folder/it.report" "$folder/it.wav" 2>&1 | sed "s#$folder/##g"
  return "${PIPESTATUS[0]}"
}

if [ ${#given[@]} -eq 2 ]; then
  beside "${given[0]}" "${given[1]}"
  exit
fi

# Each sample is a number of 24 bits and stays below half of the greatest, so that floats are exact and nothing is clamped.
python3 - "$folder" "${SESSIONS:-10}" "${SEED:-0}" <<'PY'
import random, struct, sys

folder, count, draw = sys.argv[1], int(sys.argv[2]), random.Random(int(sys.argv[3]))
LOUD = 2**22


def write(name, lines, channels, rate, frames):
    """A session, and a capture of noise, of 16 bits and no louder than 1,024."""
    open(f'{folder}/{name}.session', 'w').write(''.join(f'{it}\n' for it in lines))
    data = struct.pack(f'<{frames * channels}h', *draw.choices(range(-1024, 1025), k=frames * channels))
    head = struct.pack('<4sI4s4sIHHIIHH4sI', b'RIFF', 36 + len(data), b'WAVE', b'fmt ', 16, 1, channels, rate, 2 * rate * channels, 2 * channels, 16, b'data', len(data))
    open(f'{folder}/{name}.wav', 'wb').write(head + data)


def client(name, kind, ins, outs):
    ports = [f'do register {name}:in_{j} in audio' for j in range(1, ins + 1)] + [f'do register {name}:out_{j} out audio' for j in range(1, outs + 1)]
    return [f'do open {name} {kind}', *ports, f'do activate {name}']


def header(rate, period, channels, sides, bits):
    return ['jackd 1', f'rate {rate}', f'period {period}', f'capture {channels}', f'playback {sides} {bits}', 'mode serial']


write('first', [
    *header(48000, 64, 2, 2, 24), *client('wide', 'gain 5 3', 2, 2), *client('late', 'delay 500', 1, 1), *client('soft', 'gain 3 2', 1, 1), *client('round', 'pass', 3, 3),
    *client('turned', 'gain -1 3', 1, 1), *client('both', 'mix', 2, 1), *client('peak', 'meter', 2, 0),
    'do connect system:capture_1 wide:in_1', 'do connect system:capture_2 wide:in_2', 'do connect wide:out_1 late:in_1', 'do connect late:out_1 soft:in_1',
    'do connect wide:out_2 turned:in_1', 'do connect turned:out_1 both:in_1', 'do connect system:capture_1 both:in_2', 'do connect both:out_1 peak:in_1',
    'do connect both:out_1 system:playback_1', 'do connect soft:out_1 system:playback_1', 'do connect wide:out_1 system:playback_1', 'do connect both:out_1 system:playback_2',
    'do connect wide:out_1 system:playback_1', 'do disconnect wide:out_1 system:playback_1',
    # Two connections of feedback: late gets what round gave, and round is connected with itself.
    'do connect system:capture_2 round:in_1', 'do connect round:out_1 late:in_1', 'do connect late:out_1 round:in_2', 'do connect round:out_2 round:in_3',
    'do connect round:out_3 system:playback_2',
    'do deactivate turned', 'do activate turned', 'do connect wide:out_2 turned:in_1', 'do connect turned:out_1 both:in_1', 'do connect system:capture_2 peak:in_2',
    'run 500'], 2, 48000, 31990)

for number in range(count):
    # Edges lead to later clients, so none closes a loop. Of each port is known how many bits it has below those of the capture,
    # at most 8, and how loud it may be, as a number of 24 bits.
    channels, sides, rate, period = draw.randint(1, 4), draw.randint(1, 4), draw.choice((44100, 48000)), draw.choice((16, 64, 256, 1024))
    lines, connects = header(rate, period, channels, sides, 24), []
    sources = [(f'system:capture_{c}', 0, 1024 << 8) for c in range(1, channels + 1)]
    for place in range(draw.randint(4, 30)):
        name, ins, outs, heard = f'c{place}', draw.randint(1, 3), draw.randint(1, 3), []
        for j in range(1, ins + 1):
            below, loud = 0, 0
            for source in draw.sample(sources, min(len(sources), draw.choice((0, 1, 1, 2, 3)))):
                if loud + source[2] <= LOUD // 4:
                    below, loud = max(below, source[1]), loud + source[2]
                    connects.append(f'do connect {source[0]} {name}:in_{j}')
            heard.append((below, loud))
        below, loud = max(it[0] for it in heard), max(it[1] for it in heard)
        kind = draw.choice(('pass', 'gain', 'gain', 'mix', 'delay', 'meter'))
        if kind == 'gain':
            shift = draw.randint(0, min(3, 8 - below))
            factor = draw.choice((-1, 1)) * draw.randint(1, 1 << shift)
            kind, below = f'gain {factor} {shift}', below + shift
        elif kind == 'mix':
            loud = sum(it[1] for it in heard)
        elif kind == 'delay':
            kind = f'delay {draw.choice((0, 1, period - 1, period, draw.randint(0, 4096)))}'
        lines += client(name, kind, ins, outs)
        sources += [(f'{name}:out_{j}', below, loud) for j in range(1, outs + 1)] if kind != 'meter' else []
    for c in range(1, sides + 1):
        loud = 0
        for source in draw.sample(sources, min(len(sources), draw.randint(1, 6))):
            if loud + source[2] <= LOUD:
                loud += source[2]
                connects.append(f'do connect {source[0]} system:playback_{c}')
    draw.shuffle(connects)
    cycles = draw.randint(20, max(40, 20000 // period))
    write(f'drawn{number}', [*lines, *connects, f'run {cycles}'], channels, rate, max(0, cycles * period - draw.randint(-50, 50)))
PY

faults=0
echo "the session of this script, $(grep -c '^do ' "$folder/first.session") calls, 500 cycles of 64 frames:"
beside "$folder/first.session" "$folder/first.wav" || faults=1
echo "the same, but JACK plays gain 3 1 for gain 3 2:"
sed 's/^do open soft gain 3 2$/do open soft gain 3 1/' "$folder/first.session" > "$folder/other.session"
beside "$folder/first.session" "$folder/first.wav" "$folder/other.session"
[ $? -eq 8 ] || faults=1
clients=0
edges=0
for ((number = 0; number < ${SESSIONS:-10}; number++)); do
  session=$folder/drawn$number
  clients=$((clients + $(grep -c '^do open' "$session.session")))
  edges=$((edges + $(grep -c '^do connect' "$session.session")))
  beside "$session.session" "$session.wav" > "$folder/verdict"
  [ "$(cat "$folder/verdict")" = 'check ok' ] || { faults=1; echo "drawn session $number: $(cat "$folder/verdict")"; }
done
[ $faults -eq 0 ] && echo "${SESSIONS:-10} drawn sessions, $clients clients, $edges connections: check ok"
exit $faults
