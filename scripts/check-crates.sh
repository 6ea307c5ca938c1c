#!/usr/bin/env bash
# Each library that crates.txt names for a crate is cited by a file of that crate, in src/, specs/ or proofs/. Rows are short, since
# one of the two toolchains reads all sources below a crate once for each path that leads down to them. No crate passes on too many
# files of lower ones, since the prover writes them out once for each path of names. And the gate is at most so many processor
# minutes, by the measured seconds of scripts/gate_seconds.txt.
set -u
cd "$(dirname "$0")/.." || exit 1
status=0

while IFS=: read -r crate names; do
  crate=${crate%% *}
  for name in $names; do
    if ! grep -rqE --include='*.rt' --include='*.antt' -e "\bRattle\.$name\b|\buse $name\b|\b$name::" "crates/$crate"; then
      echo "check-crates: $crate cites $name nowhere"
      status=1
    fi
  done
done < <(sed -e 's/#.*//' -e '/^[[:space:]]*$/d' crates.txt)

# That toolchain reads a crate's own files, and then all that it reads of each crate that its row names, twice for each proof and on one
# processor: a million files of this count take four minutes.
reads=$(for crate in crates/*/; do
  echo "files $(basename "$crate") $(find "$crate"src "$crate"specs "$crate"proofs -type f 2> /dev/null | wc -l)"
done | cat - <(sed -e 's/#.*//' -e 's/:/ /' crates.txt) | awk '
  $1 == "files" { own[$2] = $3; next }
  NF { name[NR] = $1; for (i = 2; i <= NF; i++) below[$1] = below[$1] " " $i }
  function reads(crate,  names, count, i, sum) {
    if (crate in found) return found[crate]
    count = split(below[crate], names, " ")
    sum = own[crate]
    for (i = 1; i <= count; i++) if (names[i] in own) sum += reads(names[i])
    return found[crate] = sum
  }
  END { for (at in name) all += reads(name[at]); print all }')
if [ "$reads" -gt 8000000 ]; then
  echo "check-crates: $reads files are read along all paths: have what a row names besides passed on by a crate that it names anyway"
  status=1
fi

# What a crate passes on whole, by its specs/Lib.antt: the files of these crates, and what they pass on in their turn.
passed=$(for crate in crates/*/; do
  name=$(basename "$crate")
  echo "files $name $(find "$crate"src "$crate"specs "$crate"proofs -type f 2> /dev/null | wc -l)"
  [ -f "$crate"specs/Lib.antt ] && sed -nE "s/^pub use Rattle\.([a-z_]+\.specs\.)*([a-z_]+)\$/passes $name \2/p" "$crate"specs/Lib.antt
done | awk '
  $1 == "files" { own[$2] = $3; next }
  { below[$2] = below[$2] " " $3 }
  function passes(crate,  names, count, i, sum) {
    if (crate in found) return found[crate]
    count = split(below[crate], names, " ")
    for (i = 1; i <= count; i++) if (names[i] in own) sum += own[names[i]] + passes(names[i])
    return found[crate] = sum + 0
  }
  END { for (at in own) if (passes(at) > most) { most = passes(at); who = at }; print most, who }')
if [ "${passed%% *}" -gt 12000 ]; then
  echo "check-crates: ${passed##* } passes on ${passed%% *} files of lower crates: have the rows above it name what they cite"
  status=1
fi

minutes="no processor minutes, without python3"
if command -v python3 > /dev/null; then
  if ! minutes=$(python3 scripts/gate_minutes.py model); then
    echo "check-crates: the gate's minutes can't be reckoned"
    status=1
  elif [ "${minutes%% *}" -gt 330 ]; then
    echo "check-crates: more than 330 processor minutes: make what is dear simpler, or its tests rows and its edits those of edits/"
    status=1
  fi
fi

[ $status -eq 0 ] && echo "check-crates: passed, $reads files along all paths, at most ${passed%% *} passed on; $minutes"
exit $status
