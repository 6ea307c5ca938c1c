#!/usr/bin/env bash
# Files that jackd writes, at each of the four widths, are read by Python's wave, by sox and by ffprobe with the right
# numbers. A tool that is missing is passed over.
set -u
# shellcheck source=scripts/program.sh
. "$(dirname "$0")/program.sh" python3
folder=$(mktemp -d)
trap 'rm -rf "$folder"' EXIT
status=0

# The capture: five samples of 16 bits, the least and the greatest among them.
python3 - "$folder/capture" <<'PY'
import struct, sys
samples = [256, -257, 32767, -32768, 5]
data = struct.pack('<5h', *samples)
header = b'RIFF' + struct.pack('<I', 36 + len(data)) + b'WAVEfmt ' + struct.pack('<IHHIIHH', 16, 1, 1, 48000, 96000, 2, 16)
open(sys.argv[1], 'wb').write(header + b'data' + struct.pack('<I', len(data)) + data)
PY

for bits in 8 16 24 32; do
  printf '%s\n' 'jackd 1' 'rate 48000' 'period 4' 'capture 1' "playback 1 $bits" 'mode serial' \
    'do connect system:capture_1 system:playback_1' 'run 2' > "$folder/script"
  if ! (cd "$folder" && "$jackd" play script capture "out$bits" > "report$bits"); then
    echo "check-waves: jackd failed at $bits bits: $(tail -n 1 "$folder/report$bits")"
    status=1
    continue
  fi
  raw=-
  if command -v sox >/dev/null; then
    sox -D "$folder/out$bits" -t raw -e signed-integer -b 32 -L "$folder/raw$bits" || status=1
    raw="$folder/raw$bits"
  fi
  probe=-
  if command -v ffprobe >/dev/null; then
    ffprobe -v error -show_entries stream=codec_name,sample_rate,channels,duration_ts -of default=noprint_wrappers=1 "$folder/out$bits" > "$folder/probe$bits" || status=1
    probe="$folder/probe$bits"
  fi
  python3 - "$folder/out$bits" "$bits" "$raw" "$probe" <<'PY' || status=1
import struct, sys, wave
path, bits, raw, probe = sys.argv[1], int(sys.argv[2]), sys.argv[3], sys.argv[4]
played = [256, -257, 32767, -32768, 5, 0, 0, 0]
full = [x * 65536 for x in played]
stored = [x >> (32 - bits) for x in full]
width = bits // 8
faults = []

with wave.open(path) as file:
    shape = (file.getnchannels(), file.getframerate(), file.getsampwidth(), file.getnframes())
    data = file.readframes(file.getnframes())
if shape != (1, 48000, width, len(played)):
    faults.append(f'wave reads the shape {shape}')
if width == 1:
    read = [byte - 128 for byte in data]
else:
    read = [int.from_bytes(data[i:i + width], 'little', signed=True) for i in range(0, len(data), width)]
if read != stored:
    faults.append(f'wave reads {read}, not {stored}')

if raw != '-':
    data = open(raw, 'rb').read()
    read = list(struct.unpack(f'<{len(data) // 4}i', data))
    wanted = [x * 2 ** (32 - bits) for x in stored]
    if read != wanted:
        faults.append(f'sox reads {read}, not {wanted}')

if probe != '-':
    told = dict(line.split('=', 1) for line in open(probe).read().split())
    wanted = {'codec_name': {8: 'pcm_u8', 16: 'pcm_s16le', 24: 'pcm_s24le', 32: 'pcm_s32le'}[bits], 'sample_rate': '48000', 'channels': '1', 'duration_ts': '8'}
    if told != wanted:
        faults.append(f'ffprobe reads {told}, not {wanted}')

for fault in faults:
    print(f'check-waves: {bits} bits: {fault}')
sys.exit(1 if faults else 0)
PY
done
[ $status -eq 0 ] && echo "check-waves: passed"
exit $status
