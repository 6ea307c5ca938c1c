#!/usr/bin/env bash
# Proves the program and all crates below it, several side by side, and builds it:
#     scripts/build.sh
# The program stays as crates/jackd/out/jackd. The toolchain Rattle's command `rt` has to be on the path. A proof needs up to
# 4 GB of memory: $JOBS is how many there are at a time, by default one for each processor, or fewer where memory is short.
set -euo pipefail
if [ $# -gt 0 ]; then
  sed -n '2,5s/^# //p' "$0"
  [[ $1 == --help || $1 == -h ]] && exit 0
  exit 2
fi
cd "$(dirname "$0")/../crates/jackd"
if ! command -v rt > /dev/null; then
  echo "build: no \`rt\` on the path, the command of the toolchain Rattle" >&2
  exit 1
fi
processors=$(nproc)
memory=$(awk '$1 == "MemTotal:" { print int($2 / 4000000) }' /proc/meminfo)
most=$((memory < processors ? memory : processors))
rt all check --jobs "${JOBS:-$((most > 1 ? most : 1))}"
rt run -- --version
echo "build: $PWD/out/jackd"
