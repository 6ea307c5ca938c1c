#!/usr/bin/env bash
# Makes the release of a commit, from the program that the gate left:
#     scripts/release.sh [FOLDER [COMMIT]]
# FOLDER (release/) gets sagbufe-VERSION-x86_64-linux.tar.gz, its sum in SHA256SUMS, and sagbufe_VERSION_amd64.deb. COMMIT is
# HEAD if it is not said. The gate, .ci/run, must have passed here over just the sources of that commit. The same commit and
# the same program give the same bytes, in any folder. The archive is `git archive`'s: what is not committed is not in it.
set -euo pipefail
fault() {
  echo "release: $*" >&2
  exit 1
}
if [ $# -gt 2 ] || [[ ${1:-} == -* ]]; then
  sed -n '2,6s/^# //p' "$0"
  [[ $1 == --help || $1 == -h ]] && exit 0
  exit 2
fi
[ $# -gt 0 ] && mkdir -p "$1" && folder=$(cd "$1" && pwd)
cd "$(dirname "$0")/.."
folder=${folder:-$PWD/release}
commit=$(git rev-parse --verify --quiet "${2:-HEAD}^{commit}") || fault "${2:-HEAD} is no commit"
program=crates/jackd/out/jackd
passed=$(git rev-parse --git-path gate-passed)
[ -e "$passed" ] || fault "the gate has not passed here: .ci/run"
told() { sed -n "s/^$1 //p" "$passed"; }
[ "$(told sources)" = "$(scripts/sources.sh "$commit")" ] || fault "the gate passed over other sources than those of $commit: .ci/run"
[ "$(told program)" = "$(sha256sum "$program" | cut -d ' ' -f 1)" ] || fault "$program is not what the gate left: .ci/run"
version=$(git show "$commit:CHANGELOG.md" | sed -n 's/^## \([0-9][^ ]*\).*/\1/p' | head -n 1)
[ "$("$program" --version)" = "jackd $version" ] || fault "the program is $("$program" --version), and CHANGELOG.md is at $version"

room=$(mktemp -d)
trap 'rm -rf "$room"' EXIT
umask 022
name=sagbufe-$version-x86_64-linux
tree=$room/$name
mkdir "$tree"
git archive "$commit" LICENSE complete docs/FORMATS.md docs/GLOSSARY.md docs/TUTORIAL.md 'docs/*.svg' docs/jackd.1 examples \
  scripts/explained.py scripts/install.sh scripts/rehearsal.py | tar -x -C "$tree"
install -m 755 "$program" "$tree/jackd"
cat > "$tree/PROOF" <<END
Sagbufe $version for Linux on x86-64.

commit $commit
sources $(told sources)
toolchain $(told toolchain)
gate $(told gate)
program $(told program)

The gate proved each crate from these sources, refused each wrong body, ran each test, and made this program.
In a checkout of the commit \`scripts/sources.sh\` prints the sum of the sources, and .ci/run does it all again: with
the same toolchain it makes the program byte for byte. \`sha256sum jackd\` prints the sum of the program.
END
cat > "$tree/README" <<END
Sagbufe $version: an audio server whose output is proved.

To install the program below ~/.local, and to play a first session:

    scripts/install.sh
    sh examples/captures.sh /tmp
    ~/.local/bin/sagbufe-jackd play examples/straight.session /tmp/straight.capture.wav /tmp/straight.playback.wav

docs/TUTORIAL.md goes on from an empty file. PROOF says what was proved, and how to make this program again.
END
(cd "$tree" && find . -type f ! -name SHA256SUMS -print0 | LC_ALL=C sort -z | xargs -0 sha256sum > SHA256SUMS)

SOURCE_DATE_EPOCH=$(git show -s --format=%ct "$commit")
export SOURCE_DATE_EPOCH
archive=$folder/$name.tar.gz
tar -c --format=ustar --sort=name --owner=0 --group=0 --numeric-owner --mode=u=rwX,go=rX --mtime="@$SOURCE_DATE_EPOCH" \
  -C "$room" "$name" | gzip -9 -n > "$room/archive"
mkdir -p "$folder"
mv "$room/archive" "$archive"
(cd "$folder" && LC_ALL=C sha256sum sagbufe-*.tar.gz > SHA256SUMS)
echo "release: $archive"

if ! command -v dpkg-deb > /dev/null; then
  echo "release: no package, without dpkg-deb"
  exit 0
fi
package=$room/package
PROGRAM= bash "$tree/scripts/install.sh" --one-name "$package/usr" > /dev/null
papers=$package/usr/share/doc/sagbufe
mkdir -p "$papers"
cp -r "$tree/PROOF" "$tree/docs" "$tree/examples" "$tree/scripts" "$papers"
install -m 644 "$tree/LICENSE" "$papers/copyright"
rm "$papers/docs/jackd.1" "$papers/scripts/install.sh"
mkdir "$package/DEBIAN"
cat > "$package/DEBIAN/control" <<END
Package: sagbufe
Version: $version
Architecture: amd64
Maintainer: The Sagbufe developers <sagbufe@localhost>
Section: sound
Priority: optional
Depends: libc6 (>= 2.34)
Description: audio server whose output is proved
 Plays sessions in the manner of the JACK Audio Connection Kit over WAVE
 files, and prints the one history of changes that explains what it wrote.
END
find "$package" -exec touch -h -d "@$SOURCE_DATE_EPOCH" {} +
dpkg-deb --root-owner-group -Zgzip -z9 --build "$package" "$folder/sagbufe_${version}_amd64.deb" > /dev/null
echo "release: $folder/sagbufe_${version}_amd64.deb"
