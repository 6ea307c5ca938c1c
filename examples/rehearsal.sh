#!/bin/sh
# A rehearsal by hand: the script and the capture of a number (7) are made in the folder that is named, else here, and played
# from files, as any session. What `jackd rehearse` tells of the number has to be what the play's report and files show.
set -e
here=$(cd "$(dirname "$0")" && pwd)
number=${2:-7}
cd "${1:-.}"
python3 "$here/../scripts/rehearsal.py" --files "$number" rehearsal.session rehearsal.capture.wav
jackd play rehearsal.session rehearsal.capture.wav rehearsal.playback.wav --record rehearsal.record0.wav > rehearsal.report
jackd rehearse "$number" > rehearsal.told
{
  head -n 1 rehearsal.told
  python3 "$here/../scripts/rehearsal.py" --played rehearsal.playback.wav rehearsal.record0.wav rehearsal.report
} > rehearsal.shown
diff rehearsal.told rehearsal.shown
cat rehearsal.told
