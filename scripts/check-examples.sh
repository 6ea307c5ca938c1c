#!/usr/bin/env bash
# Each session of examples/ in serial mode prints its report, byte for byte, and writes the files that examples/expected.py
# computes from its capture. A session with threads prints a report that explains what it writes, by scripts/explained.py; so do
# its two reports that stand there, which differ. The rehearsal by hand shows what the program tells of its number. Captures and
# disk files are made with sox, and with Python where sox lacks.
set -u
# shellcheck source=scripts/program.sh
. "$(dirname "$0")/program.sh" python3
examples=$PWD/examples
folder=$(mktemp -d)
trap 'rm -rf "$folder"' EXIT
status=0
sh "$examples/captures.sh" "$folder" || exit 1
cd "$folder"
explained() { python3 "$examples/../scripts/explained.py" "$@" || { echo "check-examples: $3 does not explain a play of $1"; status=1; }; }
for session in "$examples"/*.session; do
  name=$(basename "$session" .session)
  words=(play "$session" "$name.capture.wav" "$name.playback.wav")
  files=("$name.playback.wav")
  recorders=$(grep -c '^recorder ' "$session")
  for ((r = 0; r < recorders; r++)); do
    words+=(--record "$name.record$r.wav")
    files+=("$name.record$r.wav")
  done
  disks=()
  for ((d = 0; d < $(grep -c '^disk ' "$session"); d++)); do
    disks+=(--disk "$name.disk$d.wav")
  done
  if ! "$jackd" "${words[@]}" "${disks[@]}" > "$name.report" 2> told; then
    echo "check-examples: $name: not played: $(tail -n 1 "$name.report")"
    cat told
    status=1
    continue
  fi
  explained "$session" "$name.capture.wav" "$name.report" "${files[@]}" "${disks[@]}"
  if grep -q '^mode threads' "$session"; then
    for report in "$examples/$name.report" "$examples/$name-2.report"; do
      explained "$session" "$name.capture.wav" "$report"
    done
    if cmp -s "$examples/$name.report" "$examples/$name-2.report"; then
      echo "check-examples: $name: its two reports are one"
      status=1
    fi
  elif ! cmp -s "$name.report" "$examples/$name.report"; then
    echo "check-examples: $name: the report differs"
    diff "$examples/$name.report" "$name.report" | head -n 10
    status=1
  fi
done
mkdir tool rehearsal
ln -s "$jackd" tool/jackd
if ! PATH=$PWD/tool:$PATH sh "$examples/rehearsal.sh" rehearsal > told 2>&1; then
  echo "check-examples: the rehearsal is not what its play shows"
  cat told
  status=1
fi
python3 "$examples/expected.py" . > files || status=1
grep 'NOT as computed' files
[ $status -eq 0 ] && echo "check-examples: passed, $(grep -c 'as computed' files) files and logs of $(ls "$examples"/*.session | wc -l) sessions, and a rehearsal"
exit $status
