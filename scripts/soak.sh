#!/usr/bin/env bash
# Hostile use, for as long as one likes:
#     scripts/soak.sh SECONDS SEED
# In turn it runs, each for its share of SECONDS (and a little longer, until what it has begun is done):
#
#     bytes      scripts/hostile.py       two fifths   changed scripts, WAVE files, reports and words
#     faults     scripts/faulty_calls.py  a fifth      calls of the system that are refused, one after the other
#     schedules  scripts/schedules.py     a quarter    drawn sessions with threads, on one, two and four processors
#     long       scripts/longest.py       the rest     the greatest sessions that the tables allow
#
# Each prints lines that begin `soak: KIND:`, with its counts and with each failure, and what shows it. The exit code is 1 where anything
# failed. KINDS='bytes faults' runs these alone, in as much time. The program is the file $PROGRAM, or what `rt run` left. The same SEED
# draws the same inputs, sessions and order of faults; how many of them there is time for, and what threads do, it does not say.
set -u
if [ $# -ne 2 ] || [[ ! $1 =~ ^[0-9]+$ ]]; then
  sed -n '2,13s/^# \{0,1\}//p' "$0"
  exit 2
fi
seconds=$1 seed=$2
# shellcheck source=scripts/program.sh
. "$(dirname "$0")/program.sh" python3
if ! "$jackd" --help | grep -q 'jackd check '; then
  echo "$check: passed over, the program has no check"
  exit 0
fi
kinds=${KINDS:-bytes faults schedules long}
parts() {
  case $1 in
    bytes) echo 8 hostile.py ;;
    faults) echo 4 faulty_calls.py ;;
    schedules) echo 5 schedules.py ;;
    long) echo 3 longest.py ;;
  esac
}
all=0
for kind in $kinds; do
  read -r part _ <<< "$(parts "$kind")"
  all=$((all + part))
done
status=0
for kind in $kinds; do
  read -r part file <<< "$(parts "$kind")"
  python3 "scripts/$file" "$jackd" "$((seconds * part / all))" "$seed" || { status=1; echo "soak: $kind: failed"; }
done
exit $status
