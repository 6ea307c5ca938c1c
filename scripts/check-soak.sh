#!/usr/bin/env bash
# A short soak: $SECONDS_A_SOAK (60) of scripts/soak.sh with the seed $SEED (1), which is a minute and a half of one processor at most.
# Every class of answers of docs/FORMATS.md that is served is reached in each. Where strace or gcc lacks, or may trace no program, what
# needs it is left out, and the soak says so.
set -u
# shellcheck source=scripts/program.sh
. "$(dirname "$0")/program.sh" python3
"$jackd" --help | grep -q 'jackd check ' || { echo "$check: passed over, the program has no check"; exit 0; }
if told=$(PROGRAM=$jackd bash scripts/soak.sh "${SECONDS_A_SOAK:-60}" "${SEED:-1}" 2>&1); then
  echo "check-soak: passed"
  grep -e ': no ' -e ' failures$' <<< "$told"
else
  echo "$told"
  echo 'check-soak: failed'
  exit 1
fi
