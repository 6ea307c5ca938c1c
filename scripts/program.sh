# shellcheck shell=bash
# What each check of the program begins with: it goes to the top of the repository and sets $jackd to the program, which is
# the file $PROGRAM or $JACKD, or crates/jackd/out/jackd as `rt run` leaves it. The arguments are the tools that the check
# needs. Where the program or a tool is missing, the check is passed over.
check=$(basename "$0" .sh)
top=$(dirname "${BASH_SOURCE[0]}")/..
jackd=$(realpath -m "${PROGRAM:-${JACKD:-$top/crates/jackd/out/jackd}}")
cd "$top" || exit 1
if [ ! -x "$jackd" ]; then
  echo "$check: passed over, no program at $jackd"
  exit 0
fi
for tool; do
  if ! command -v "$tool" >/dev/null; then
    echo "$check: passed over, no $tool"
    exit 0
  fi
done
