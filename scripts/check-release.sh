#!/usr/bin/env bash
# The newest archive of release/ is whole, is what scripts/release.sh makes of its commit, and works: its sums are right; its
# program plays the examples, and the worked rows of its commit; scripts/install.sh installs it, says which it is, and takes it
# away again; so does a package of it; and the first commands of README.md play a session. Where its sources are those of this
# checkout, and its toolchain the one here, the gate's own program is byte for byte the released one. Else the check says of
# which commit the release is, and whether the formats of scripts and reports have changed since. What needs that commit is
# passed over where it is not in this checkout's history.
set -u
cd "$(dirname "$0")/.." || exit 1
top=$PWD
archive=$(find release -name 'sagbufe-*.tar.gz' 2> /dev/null | sort -V | tail -n 1)
if [ -z "$archive" ]; then
  echo "check-release: passed over, no release yet"
  exit 0
fi
folder=$(mktemp -d)
trap 'rm -rf "$folder"' EXIT
status=0
fault() {
  echo "check-release: $*"
  status=1
}
over() { echo "check-release: passed over, $*"; }

name=$(basename "$archive" .tar.gz)
(cd release && sha256sum --check --strict --quiet SHA256SUMS) || fault "release/SHA256SUMS has other sums"
[ "$(wc -l < release/SHA256SUMS)" -eq "$(find release -name 'sagbufe-*.tar.gz' | wc -l)" ] || fault "release/SHA256SUMS has another number of archives"
tar -x -z -f "$archive" -C "$folder" || exit 1
tree=$folder/$name jackd=$folder/$name/jackd
[ "$(ls "$folder")" = "$name" ] || fault "the archive has more than the folder $name"
(cd "$tree" && sha256sum --check --strict --quiet SHA256SUMS) || fault "a file of the archive has another sum"
[ "$(wc -l < "$tree/SHA256SUMS")" -eq "$(find "$tree" -type f ! -name SHA256SUMS | wc -l)" ] || fault "a file of the archive has no sum"
told() { sed -n "s/^$1 //p" "$tree/PROOF"; }
commit=$(told commit) version=$(echo "$name" | cut -d - -f 2)
[ "$(told program)" = "$(sha256sum "$jackd" | cut -d ' ' -f 1)" ] || fault "PROOF names another program"
[[ $(told gate) =~ ^[0-9]+\ passed,\ 0\ failed$ ]] || fault "PROOF tells of a gate that did not pass: $(told gate)"
[ "$("$jackd" --version)" = "jackd $version" ] || fault "the program tells another version than $version"

# Installed, it plays; installed and taken away, nothing is left of it.
for words in '' --one-name; do
  PROGRAM= PATH="$folder/prefix/bin:$PATH" bash "$tree/scripts/install.sh" $words "$folder/prefix" > "$folder/said" || fault "not installed: $(cat "$folder/said")"
  grep -q "Sagbufe $version, proved at $commit" "$folder/said" || fault "install.sh does not say which release it is: $(cat "$folder/said")"
  cmp "$folder/prefix/bin/sagbufe-jackd" "$jackd" || fault "another program is installed"
done
bash "$tree/scripts/install.sh" --uninstall "$folder/prefix" > /dev/null || fault "not taken away"
[ -z "$(find "$folder/prefix" ! -type d)" ] || fault "left behind: $(find "$folder/prefix" ! -type d)"
PROGRAM= bash scripts/install.sh "$folder/prefix" > "$folder/said" || fault "not installed from the checkout: $(cat "$folder/said")"
cmp "$folder/prefix/bin/sagbufe-jackd" "$jackd" || fault "the checkout installs another program"
bash scripts/install.sh --uninstall "$folder/prefix" > /dev/null || fault "not taken away by the checkout"

# What it plays: its own examples, and all rows and examples of its commit.
straight() {
  sh "$tree/examples/captures.sh" "$folder" && "$1" play "$tree/examples/straight.session" "$folder/straight.capture.wav" "$folder/played.wav" |
    cmp - "$tree/examples/straight.report"
}
straight "$jackd" || fault "straight.session is not played"
if git cat-file -e "$commit^{commit}" 2> /dev/null; then
  git clone -q --shared --no-checkout . "$folder/then" && git -C "$folder/then" checkout -q "$commit" || exit 1
  for check in rows examples waves; do
    PROGRAM=$jackd bash "$folder/then/scripts/check-$check.sh" > "$folder/said" 2>&1 || fault "check-$check.sh of its commit: $(tail -n 5 "$folder/said")"
    echo "check-release: $(tail -n 1 "$folder/said")"
  done
  # The release is made again, in another folder.
  mkdir -p "$folder/then/crates/jackd/out"
  cp "$jackd" "$folder/then/crates/jackd/out"
  cp "$tree/PROOF" "$folder/then/.git/gate-passed"
  if bash "$folder/then/scripts/release.sh" "$folder/made" "$commit" > "$folder/said" 2>&1; then
    cmp "$folder/made/$name.tar.gz" "$archive" || fault "release.sh makes another archive of the same commit and program"
  else
    fault "release.sh does not make it again: $(cat "$folder/said")"
  fi
  if ls "$folder"/made/*.deb > /dev/null 2>&1; then
    { dpkg-deb -x "$folder"/made/*.deb "$folder/root" && straight "$folder/root/usr/bin/sagbufe-jackd"; } || fault "the package does not play"
    [ -e "$folder/root/usr/bin/jackd" ] && fault "the package takes the name jackd"
  else
    over "no package, without dpkg-deb"
  fi
else
  over "the commit of the release, $commit, is not here"
fi

# The first block of the README, as a new user types it.
mkdir "$folder/home" "$folder/tmp"
sed -n '/^```sh$/,/^```$/p' README.md | sed '1d; /^```$/,$d' | sed "s|/tmp|$folder/tmp|g" > "$folder/first"
if env -u PROGRAM -u JACKD HOME="$folder/home" bash -e "$folder/first" > "$folder/said" 2>&1; then
  [ "$(od -An -v -td2 -j44 "$folder/tmp/straight.playback.wav" | xargs)" = '1 2 3 4 5 0 0 0' ] || fault "the first commands of README.md play other samples"
else
  fault "the first commands of README.md do not play: $(cat "$folder/said")"
fi

# Beside this checkout.
if [ "$(told sources)" = "$(scripts/sources.sh)" ]; then
  passed=$(git rev-parse --git-path gate-passed)
  if [ ! -e "$passed" ]; then
    over "the gate's own program: the gate has not passed here"
  elif [ "$(sed -n 's/^toolchain //p' "$passed")" != "$(told toolchain)" ]; then
    over "the gate's own program: its toolchain is $(sed -n 's/^toolchain //p' "$passed"), and the release's $(told toolchain)"
  elif cmp crates/jackd/out/jackd "$jackd"; then
    echo "check-release: the gate's program is the released one"
  else
    fault "the gate's program is another than the released one, of the same sources"
  fi
else
  echo "check-release: the release is of $commit, and the sources have changed since"
  if git cat-file -e "$commit^{commit}" 2> /dev/null; then
    if git diff --quiet "$commit" -- docs/FORMATS.md; then
      echo "check-release: docs/FORMATS.md has not changed since"
    else
      echo "check-release: docs/FORMATS.md has changed since"
    fi
  fi
fi
[ $status -eq 0 ] && echo "check-release: passed, $name"
cd "$top" && exit $status
