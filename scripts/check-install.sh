#!/usr/bin/env bash
# scripts/install.sh installs a program that plays, under its two names or under one, with a man page that is read and
# with completion that bash, zsh and fish take, and takes away what it installed. Where another jackd is on the path already
# the check is passed over, and so is a tool that is missing.
set -u
# shellcheck source=scripts/program.sh
. "$(dirname "$0")/program.sh"
if command -v jackd >/dev/null; then
  echo "check-install: passed over, $(command -v jackd) is on the path"
  exit 0
fi
folder=$(mktemp -d)
trap 'rm -rf "$folder"' EXIT
status=0
fault() {
  echo "check-install: $*"
  status=1
}
over() { echo "check-install: passed over, no $1"; }

# Where no other jackd is on the path both names are installed, and again over the first time.
for time in first second; do
  PROGRAM=$jackd PATH="$folder/free/bin:$PATH" bash scripts/install.sh "$folder/free" > "$folder/said" || fault "the $time time it failed: $(cat "$folder/said")"
  for name in sagbufe-jackd jackd; do
    [ "$("$folder/free/bin/$name" --version)" = "$("$jackd" --version)" ] || fault "the $time time $name is not the program"
  done
done
# Another jackd keeps its name, and nothing of it is written over.
mkdir -p "$folder/other"
printf '#!/bin/sh\necho another\n' > "$folder/other/jackd"
chmod +x "$folder/other/jackd"
PROGRAM=$jackd PATH="$folder/other:$PATH" bash scripts/install.sh "$folder/kept" > "$folder/said" || fault "beside another jackd it failed"
grep -q "$folder/other/jackd keeps the name" "$folder/said" || fault "it does not say that another jackd keeps its name"
[ -e "$folder/kept/bin/sagbufe-jackd" ] || fault "sagbufe-jackd is not there beside another jackd"
for name in bin/jackd share/man/man1/jackd.1 share/bash-completion/completions/jackd share/fish/vendor_completions.d/jackd.fish; do
  [ -e "$folder/kept/$name" ] && fault "$name is there beside another jackd"
done
[ "$(head -n 1 "$folder/kept/share/zsh/site-functions/_sagbufe-jackd")" = '#compdef sagbufe-jackd' ] || fault "zsh completes another jackd"

# What was installed is taken away, and nothing else; the help is told.
touch "$folder/kept/bin/jackd" "$folder/kept/bin/mine"
bash scripts/install.sh --uninstall "$folder/kept" > "$folder/said" || fault "not taken away: $(cat "$folder/said")"
[ "$(cd "$folder/kept" && find . ! -type d | sort | xargs)" = './bin/jackd ./bin/mine' ] || fault "behind --uninstall there is: $(find "$folder/kept" ! -type d)"
bash scripts/install.sh --uninstall "$folder/kept" > "$folder/said" 2>&1 && fault "what is not there was taken away"
bash scripts/install.sh --help | grep -q -e --uninstall || fault "no help"
bash scripts/install.sh --nothing > "$folder/said" 2>&1
[ $? -eq 2 ] || fault "an option that is none was taken"

# The man page.
page=$folder/free/share/man/man1/jackd.1
if command -v man >/dev/null; then
  MANPAGER=cat MANWIDTH=100 man -l "$page" 2>"$folder/warned" | grep -q 'EXIT STATUS' || fault "man does not show the page: $(cat "$folder/warned")"
else
  over man
fi
if command -v groff >/dev/null; then
  warned=$(groff -man -Tutf8 -ww "$page" 2>&1 >/dev/null)
  [ -z "$warned" ] || fault "groff: $warned"
else
  over groff
fi
if command -v mandoc >/dev/null; then
  warned=$(mandoc -T lint -W warning "$page") || fault "mandoc: $warned"
else
  over mandoc
fi

# Completion in bash: what is offered behind these words, the last of which is completed.
mkdir "$folder/files"
touch "$folder/files/one.session"
offered() {
  (cd "$folder/files" && bash --norc -c '
    source "$0"; COMP_WORDS=("$@"); COMP_CWORD=$(($# - 1))
    "$(complete -p "$1" | sed "s/.* -F \(\S*\) .*/\1/")"; echo "${COMPREPLY[*]}"' "$folder/free/share/bash-completion/completions/$1" "$@")
}
try() {
  local wanted=$1
  shift
  local got
  got=$(offered "$@" 2>&1)
  [ "$got" = "$wanted" ] || fault "bash offers '$got' behind '$*', not '$wanted'"
}
for name in jackd sagbufe-jackd; do
  try 'play rehearse graph check --help --version' $name ''
  try 'play' $name p
  try 'rehearse' $name r
  try 'graph' $name g
  try 'one.session' $name graph ''
  try '--dot' $name graph a b 3 ''
  try '' $name rehearse ''
  try 'one.session' $name play ''
  try 'one.session' $name play a b o
  try '--record --disk --strict --no-sync' $name play a b c ''
  try 'one.session' $name play a b c --record ''
  try '' $name play a b c --record -
  try 'one.session' $name play a b c --disk ''
  try '--record --disk --strict --no-sync' $name play a b c --record d --record e --record f ''
  try '--disk --strict --no-sync' $name play a b c --record d --record e --record f --record g ''
  try '--disk --strict --no-sync' $name play a b c --record d --disk e --disk f --disk g ''
  try '--strict --no-sync' $name play a b c --disk d --disk e --disk f --disk g ''
  try '--strict --no-sync' $name play -
  try 'one.session' $name play --strict a b o
  try '--record --disk --no-sync' $name play --strict a b c ''
  try '--record --disk' $name play --strict a b c --no-sync ''
  try '' $name play --strict --no-sync -
  try '--record' $name check a b c d ''
  try '' $name --help ''
done

# zsh reads its completion; fish offers what bash offers.
if command -v zsh >/dev/null; then
  zsh -n "$folder/free/share/zsh/site-functions/_sagbufe-jackd" || fault "zsh does not read its completion"
else
  over zsh
fi
if command -v fish >/dev/null; then
  for name in jackd sagbufe-jackd; do
    got=$(cd "$folder/files" && fish --no-config -c "source $folder/free/share/fish/vendor_completions.d/$name.fish; complete -C '$name '; complete -C '$name play a '; complete -C '$name play a b c --'; complete -C '$name play --strict a b c --'" | cut -f 1 | tr '\n' ' ')
    [ "$got" = 'check graph play rehearse one.session --disk --no-sync --record --strict --disk --no-sync --record ' ] || fault "fish offers '$got'"
  done
else
  over fish
fi
[ $status -eq 0 ] && echo "check-install: passed"
exit $status
