#!/usr/bin/env bash
# Prints the SHA-256 sum over all sources, of the checkout, or of a commit of it:
#     scripts/sources.sh [COMMIT]
# The sources are crates.txt, HANDLES, and each .rt and .antt file of crates/. The sum is of the list that `sha256sum` makes
# of them, sorted by name: a file with another byte or another name gives another sum.
set -euo pipefail
cd "$(dirname "$0")/.."
case ${1:-} in
  '') from=. ;;
  -*)
    sed -n '2,5s/^# //p' "$0"
    [[ $1 == --help || $1 == -h ]] && exit 0
    exit 2
    ;;
  *)
    from=$(mktemp -d)
    trap 'rm -rf "$from"' EXIT
    git archive "$1" HANDLES crates crates.txt | tar -x -C "$from"
    ;;
esac
cd "$from"
export LC_ALL=C
{
  printf '%s\0' HANDLES crates.txt
  find crates -path '*/out' -prune -o -type f \( -name '*.rt' -o -name '*.antt' \) -print0
} | sort -z | xargs -0 sha256sum | sha256sum | cut -d ' ' -f 1
