#!/usr/bin/env bash
# What a play must not lose is there behind it, byte for byte: the script, the capture, the disk files, and the outputs of a play
# that makes none of them, whatever their names are. Compared are checksums, exit codes and standard output.
set -u
# shellcheck source=scripts/program.sh
. "$(dirname "$0")/program.sh" python3 sha256sum
folder=$(mktemp -d)
trap 'chmod -R u+w "$folder"; rm -rf "$folder"' EXIT
cp "$jackd" "$folder/jackd"
jackd=$folder/jackd
status=0
cases=0

# Scripts without and with a recorder, and of a disk file that is recorded, a capture of 40 samples, which is the disk file too, and
# a file of an earlier play.
mkdir "$folder/given"
printf '%s\n' 'jackd 1' 'rate 48000' 'period 4' 'capture 1' 'playback 1 16' 'mode serial' \
  'do connect system:capture_1 system:playback_1' 'run 10' > "$folder/given/s"
printf '%s\n' 'jackd 1' 'rate 48000' 'period 4' 'capture 1' 'playback 1 16' 'mode serial' 'recorder 1 16' \
  'do open tape record 0' 'do register tape:in in audio' 'do activate tape' 'do connect system:capture_1 tape:in' \
  'do connect system:capture_1 system:playback_1' 'run 10' > "$folder/given/r"
printf '%s\n' 'jackd 3' 'rate 48000' 'period 4' 'capture 1' 'playback 1 16' 'mode serial' 'recorder 1 16' 'disk 1' \
  'do open tape record 0' 'do register tape:in in audio' 'do activate tape' \
  'do open track disk 0' 'do register track:out out audio' 'do activate track' 'do connect track:out tape:in' \
  'do connect track:out system:playback_1' 'run 10' > "$folder/given/k"
python3 - "$folder/given" <<'PY'
import struct, sys
def wave(name, samples):
    data = struct.pack(f'<{len(samples)}h', *samples)
    header = b'RIFF' + struct.pack('<I', 36 + len(data)) + b'WAVEfmt ' + struct.pack('<IHHIIHH', 16, 1, 1, 48000, 96000, 2, 16)
    open(f'{sys.argv[1]}/{name}', 'wb').write(header + b'data' + struct.pack('<I', len(data)) + data)
wave('c', range(1, 41))
wave('d', range(1, 41))
wave('old', range(100, 200))
PY

fault() {
  echo "check-files: $name: $1"
  status=1
}

# A new case, in a folder of its own.
begin() {
  name=$1
  cases=$((cases + 1))
  cp -r "$folder/given" "$folder/$cases"
  cd "$folder/$cases" || exit 1
  report=$folder/report$cases
}

# Plays with these words, and wants this exit code, and standard output that is empty, or a fault line, or a report.
play() {
  local wanted=$1 out=$2
  shift 2
  "$jackd" play "$@" > "$report" 2> "$folder/errors$cases"
  local code=$?
  [ $code -eq "$wanted" ] || fault "exit code $code, not $wanted"
  case $out in
    nothing) [ ! -s "$report" ] || fault 'something was put out' ;;
    fault) grep -q '^fault ' "$report" || fault 'no fault was put out' ;;
    report) [ "$(head -n 1 "$report")" = 'report 1' ] && [ "$(tail -n 1 "$report")" = end ] || fault 'no report was put out' ;;
  esac
}

# These files are as they were given.
same() {
  local file
  for file in "$@"; do
    [ "$(sha256sum < "$file")" = "$(sha256sum < "$folder/given/${file##*/}")" ] || fault "$file was changed"
  done
}

# This file is the playback of the capture: a WAVE file of its 40 samples.
played() {
  [ "$(sha256sum < "$1")" = "$(sha256sum < "$folder/given/c")" ] || fault "$1 is not the playback"
}

begin 'a play'
play 0 report s c p
played p
same s c

begin 'a play over an earlier file'
play 0 report r c old --record q
played old
played q
same r c

begin 'the capture as the playback, spelt otherwise'
play 6 nothing s c ./c
same s c

begin 'the capture as the playback, by a symbolic link'
ln -s c link
play 6 nothing s c link
same s c

begin 'the capture as the playback, by a hard link'
ln c link
play 6 nothing s c link
same s c

begin 'the script as the playback'
play 6 nothing s c ./s
same s c

begin 'the script as a record'
play 6 nothing r c old --record ./r
same r c old

begin 'the capture as a record'
play 6 nothing r c old --record ./c
same r c old

begin 'a record that is the playback'
play 6 nothing r c old --record ./old
same r c old

begin 'a record that is the playback, by a hard link'
ln old link
play 6 nothing r c old --record link
same r c old

begin 'a record that is a playback which was not there'
play 6 nothing r c p --record ./p
same r c

begin 'a play of a disk file'
play 0 report k old p --record q --disk d
played p
played q
same k old d

begin 'a play of the capture as a disk file'
play 0 report k c p --record q --disk ./c
played p
same k c

begin 'a disk file as the playback, spelt otherwise'
play 6 nothing k c ./d --record old --disk d
same k c d old

begin 'a disk file as a record, by a hard link'
ln d link
play 6 nothing k c old --record link --disk d
same k c d old

begin 'a disk file from a pipe'
mkfifo pipe
cat d > pipe &
writer=$!
play 0 report k old p --record q --disk pipe
wait "$writer"
played p
same k old d

begin 'a disk file that is no WAVE file'
play 4 fault k c old --record p --disk s
same k c old s
[ ! -e p ] || fault 'a record was made'

begin 'a record in a missing folder'
play 6 nothing r c old --record missing/q
same r c old

begin 'a playback in a missing folder'
play 6 nothing r c missing/p --record old
same r c old

begin 'a folder as the playback'
mkdir to
play 6 nothing s c to
same s c

begin 'a folder as a record'
mkdir to
play 6 nothing r c old --record to
same r c old

begin 'a record that may not be written'
cp old locked
chmod a-w locked
if [ -w locked ]; then
  echo "check-files: $name: passed over, this user may write all files"
else
  play 6 nothing r c old --record locked
  same r c old
  cmp -s locked "$folder/given/old" || fault 'locked was changed'
fi

if [ -c /dev/null ]; then
  begin 'a playback that goes nowhere'
  play 0 report s c /dev/null
  same s c
fi

if [ -c /dev/full ]; then
  begin 'a playback on a device that is full'
  play 6 nothing s c /dev/full
  same s c
fi

# Plays with these words beside a file system of its own, `small`, of 64 KiB and so many files and folders, with `old` in it.
# What it has behind the play is copied into `behind`.
play_in_small() {
  local inodes=$1
  shift
  mkdir small behind
  # shellcheck disable=SC2016
  unshare -rm sh -c '
    mount -t tmpfs -o "size=64k,nr_inodes=$1" small small && cp old small/old || exit 99
    report=$2 errors=$3 jackd=$4
    shift 4
    "$jackd" play "$@" > "$report" 2> "$errors"
    code=$?
    cp small/* behind
    exit $code' small "$inodes" "$report" "$folder/errors$cases" "$jackd" "$@"
  code=$?
  [ $code -eq 6 ] || fault "exit code $code, not 6"
  [ ! -s "$report" ] || fault 'something was put out'
}

mkdir "$folder/small"
if unshare -rm mount -t tmpfs small "$folder/small" 2> /dev/null; then
  begin 'a record that a full file system has no place for'
  play_in_small 2 r c small/old --record small/q
  same r c old behind/old
  [ ! -e behind/q ] || fault 'a record was made'

  begin 'a record that a full file system has no place for, and a new playback'
  play_in_small 3 r c small/p --record small/q
  same r c old behind/old

  begin 'a playback that a full file system has no room for'
  sed -i 's/^run 10$/run 20000/' s
  cp s long
  play_in_small 9 s c small/p
  cmp -s s long || fault 's was changed'
  same c old behind/old
  [ "$(stat -c %s behind/p)" -lt 65536 ] || fault 'the playback is longer than its file system'
else
  echo 'check-files: a full file system: passed over, none can be mounted'
fi

# A file in memory that is sealed against becoming shorter keeps its bytes: it can't be emptied, so nothing is written to it.
begin 'a playback that may not become shorter'
python3 - "$jackd" "$report" "$folder/errors$cases" <<'PY' || fault 'it was not refused, or its bytes were changed'
import fcntl, os, subprocess, sys
jackd, report, errors = sys.argv[1:]
old = open('old', 'rb').read()
fd = os.memfd_create('old', os.MFD_ALLOW_SEALING)
os.write(fd, old)
fcntl.fcntl(fd, fcntl.F_ADD_SEALS, fcntl.F_SEAL_SHRINK)
with open(report, 'wb') as out, open(errors, 'wb') as told:
    code = subprocess.run([jackd, 'play', 's', 'c', f'/proc/self/fd/{fd}'], stdout=out, stderr=told, pass_fds=[fd]).returncode
sys.exit(code != 6 or os.path.getsize(report) or os.pread(fd, 2 * len(old), 0) != old)
PY
same s c

begin 'a playback into a pipe'
mkfifo pipe
cat pipe > piped &
reader=$!
play 6 nothing s c pipe
wait "$reader"
same s c

# The first program holds its playback while it waits for its capture.
begin 'two programs at once on one output'
mkfifo pipe
"$jackd" play s pipe old > "$report.first" &
first=$!
exec 3<> pipe
head -c 44 c >&3
for _ in $(seq 50); do
  sleep 0.1
  if command -v lsof >/dev/null && lsof -t old >/dev/null; then break; fi
done
play 6 nothing s c old
same s c old
tail -c +45 c >&3
exec 3>&-
wait "$first" || fault 'the first program failed'
played old

begin 'standard output is closed'
"$jackd" play s c p >&- 2> "$folder/errors$cases"
code=$?
[ $code -eq 6 ] || fault "exit code $code, not 6"
same s c
played p

begin 'standard input and output are closed'
"$jackd" play s c p <&- >&- 2> "$folder/errors$cases"
code=$?
[ $code -eq 6 ] || fault "exit code $code, not 6"
same s c
played p

[ $status -eq 0 ] && echo "check-files: passed, $cases cases"
exit $status
