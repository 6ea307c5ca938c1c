#!/usr/bin/env bash
# Installs the program, its man page and its completion below PREFIX, which is ~/.local if it is not said:
#     scripts/install.sh [--prove] [--one-name] [PREFIX]
#     scripts/install.sh --uninstall [PREFIX]
# It installs the ready program: that of the newest release in release/, or, in an unpacked release, the one beside it. With
# --prove it proves and builds the program from the sources first (scripts/build.sh). $PROGRAM names another program.
# The program is installed as `sagbufe-jackd`, and as `jackd` too where no other program on the path has that name, as the
# server of JACK has; with --one-name never. --uninstall takes away what was installed, and nothing else.
set -euo pipefail
usage() { sed -n '2,8s/^# //p' "$0"; }
fault() {
  echo "install: $*" >&2
  exit 1
}
way=install both=yes prefix=
for word; do
  case $word in
    -h | --help) usage && exit 0 ;;
    --prove) way=prove ;;
    --uninstall) way=uninstall ;;
    --one-name) both=no ;;
    -*) usage && exit 2 ;;
    *)
      [ -z "$prefix" ] || { usage && exit 2; }
      prefix=$word
      ;;
  esac
done
prefix=${prefix:-$HOME/.local}
[ $way = uninstall ] && [ ! -d "$prefix" ] && fault "no folder $prefix"
mkdir -p "$prefix"
prefix=$(cd "$prefix" && pwd)
cd "$(dirname "$0")/.."

bin=$prefix/bin man=$prefix/share/man/man1
bash=$prefix/share/bash-completion/completions fish=$prefix/share/fish/vendor_completions.d
zsh=$prefix/share/zsh/site-functions
# Each file, and the name that it has beside it where the name jackd is free.
files=("$bin/sagbufe-jackd" "$man/sagbufe-jackd.1" "$bash/sagbufe-jackd" "$fish/sagbufe-jackd.fish")
links=("$bin/jackd" "$man/jackd.1" "$bash/jackd" "$fish/jackd.fish")
# Whether the link with that number is one that was installed here.
is_ours() { [ -L "${links[$1]}" ] && [ "$(readlink "${links[$1]}")" = "$(basename "${files[$1]}")" ]; }

if [ $way = uninstall ]; then
  [ -e "${files[0]}" ] || fault "nothing is installed below $prefix"
  for at in "${!links[@]}"; do
    is_ours "$at" && rm -f "${links[$at]}"
    rm -f "${files[$at]}"
  done
  rm -f "$zsh/_sagbufe-jackd"
  echo "install: taken away below $prefix"
  exit 0
fi

# Where the program and its papers come from.
from=$PWD program=${PROGRAM:-} what=${PROGRAM:-}
if [ $way = prove ]; then
  scripts/build.sh
  program=$PWD/crates/jackd/out/jackd what="the program that was just proved"
elif [ -z "$program" ]; then
  if [ ! -e PROOF ]; then
    archive=$(find release -name 'sagbufe-*.tar.gz' 2> /dev/null | sort -V | tail -n 1)
    [ -n "$archive" ] || fault "no release in $PWD/release: --prove builds the program from the sources"
    (cd release && grep " $(basename "$archive")\$" SHA256SUMS | sha256sum --check --status) || fault "$archive has another sum than in release/SHA256SUMS"
    room=$(mktemp -d)
    trap 'rm -rf "$room"' EXIT
    tar -x -z -f "$archive" -C "$room"
    from=$room/$(basename "$archive" .tar.gz)
  fi
  [ "$(uname -s) $(uname -m)" = "Linux x86_64" ] || fault "the ready program is for Linux on x86-64, and this is $(uname -s) on $(uname -m): --prove builds it from the sources"
  program=$from/jackd what="$(head -n 1 "$from/PROOF" | sed 's/ for .*//'), proved at $(sed -n 's/^commit //p' "$from/PROOF")"
fi
[ -x "$program" ] || fault "no program at $program"

mkdir -p "$bin" "$man" "$bash" "$zsh" "$fish"
install -m 755 "$program" "${files[0]}"
install -m 644 "$from/docs/jackd.1" "${files[1]}"
install -m 644 "$from/complete/jackd.bash" "${files[2]}"
install -m 644 "$from/complete/jackd.fish" "${files[3]}"

other=$(command -v jackd || true)
[ "$other" = "${links[0]}" ] && is_ours 0 && other=
if [ $both = yes ] && [ -z "$other" ]; then
  for at in "${!links[@]}"; do
    ln -sf "$(basename "${files[$at]}")" "${links[$at]}"
  done
  install -m 644 "$from/complete/_jackd" "$zsh/_sagbufe-jackd"
  echo "install: $bin/sagbufe-jackd, and $bin/jackd: $what"
else
  sed '1s/ jackd / /' "$from/complete/_jackd" > "$zsh/_sagbufe-jackd"
  echo "install: $bin/sagbufe-jackd: $what"
  [ -z "$other" ] || echo "install: $other keeps the name jackd"
fi
case ":$PATH:" in
  *":$bin:"*) ;;
  *) [ $both = no ] || echo "install: $bin is not on the path" ;;
esac
