#!/usr/bin/env bash
# Tries the wrong bodies that stand beside the gate, in crates/NAME/edits/: the prover has to refuse each.
#     scripts/edits.sh [NAME..]
# Without names all crates are tried that have some. It works on a copy of this checkout, with what `rt check` built here, and
# leaves the checkout as it is. $RT is the toolchain's command, `rt` if it is not said. Behind the verdicts it counts them, and
# ends with 1 where one was not refused.
set -u
cd "$(dirname "$0")/.." || exit 1
if [[ ${1:-} == -* ]]; then
  sed -n '2,6s/^# //p' "$0"
  [[ $1 == --help || $1 == -h ]] && exit 0
  exit 2
fi
names=("$@")
[ $# -eq 0 ] && mapfile -t names < <(for it in crates/*/edits; do basename "$(dirname "$it")"; done)
for name in "${names[@]}"; do
  if [ ! -d "crates/$name/edits" ]; then
    echo "edits: no folder crates/$name/edits" >&2
    exit 2
  fi
done

room=$(mktemp -d)
trap 'rm -rf "$room"' EXIT
tar -c --exclude='crates/*/out' HANDLES crates crates.txt | tar -x -C "$room"
for built in crates/*/out/rlib; do
  [ -d "$built" ] && cp -r --parents "$built" "$room"
done
cd "$room" || exit 1
rm -rf crates/*/must-fail
for name in "${names[@]}"; do
  kept=$OLDPWD/crates/$name/out/incremental
  [ -d "$kept" ] && mkdir -p "crates/$name/out" && cp -r "$kept" "crates/$name/out"
  mv "crates/$name/edits" "crates/$name/must-fail"
done
if [ $# -eq 0 ]; then
  ${RT:-rt} all check --jobs "$(nproc)" > "$room/checked" 2>&1 || tail -n 20 "$room/checked"
fi
for name in "${names[@]}"; do
  ${RT:-rt} must-fail "$name" 2>&1 | tee -a "$room/said"
done

wanted=$(find crates/*/must-fail -name '*.edit' | wc -l)
refused=$(grep -c '^rt: must-fail .*: refused, as it must be' "$room/said")
proved=$(grep -c '^rt: must-fail .*: NOT REFUSED' "$room/said")
echo "edits: $refused refused, $proved proved$([ $((refused + proved)) -eq "$wanted" ] || echo ", $((wanted - refused - proved)) not tried")"
[ "$refused" -eq "$wanted" ]
