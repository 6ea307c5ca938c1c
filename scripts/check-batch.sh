#!/usr/bin/env bash
# The commands of docs/BATCH.md, sections 1 to 3, as they stand there, over the sessions of examples/: a block whose first line has
# two words is a file of that name, and a block of `sh` is typed. Side by side with GNU parallel, and then by make, each session
# leaves its report, its files and `check ok`. Then a session with a fault is put beside them: the job fails, its exit code is told,
# and the others stay. Where parallel or make is missing, that part is passed over. Where the program has no `check`,
# scripts/verdicts.py, which computes the same from docs/FORMATS.md alone, stands in for it.
set -u
# shellcheck source=scripts/program.sh
. "$(dirname "$0")/program.sh" python3
top=$PWD
folder=$(mktemp -d)
trap 'rm -rf "$folder"' EXIT
mkdir "$folder/tool" "$folder/batch" "$folder/home"
status=0
tried=
fault() {
  echo "check-batch: $*"
  status=1
}
if "$jackd" --help | grep -q 'jackd check '; then
  ln -s "$jackd" "$folder/tool/jackd"
else
  echo 'check-batch: jackd check: passed over, the program has none; scripts/verdicts.py stands in for it'
  cat > "$folder/tool/jackd" << END
#!/bin/sh
[ "\$1" = check ] || exec "$jackd" "\$@"
shift
while [ \$# -gt 0 ]; do [ "\$1" = --record ] || echo "\$1"; shift; done | xargs -d '\n' python3 "$top/scripts/verdicts.py"
code=\$?
[ \$code -ne 123 ] || exit 8
exit \$code
END
  chmod +x "$folder/tool/jackd"
fi
export PATH=$folder/tool:$PATH PARALLEL_HOME=$folder/home
unset PARALLEL MAKEFLAGS MFLAGS MAKELEVEL
cd "$folder/batch" || exit 1
ln -s "$top/examples" examples

# Writes the files of a section of the page, and types its commands: their exit code is the last one's.
type_section() {
  python3 - "$top/docs/BATCH.md" "$1" << 'PY' || exit 1
import re, sys
section = re.search(rf'^## {sys.argv[2]}\. .*?(?=^## |\Z)', open(sys.argv[1]).read(), re.M | re.S)[0]
typed = []
for language, name, text in re.findall(r'^```(\S+)(?: (\S+))?\n(.*?)^```$', section, re.M | re.S):
    if name:
        open(name, 'w').write(text)
    elif language == 'sh':
        typed.append(text)
open('typed', 'w').write(''.join(typed))
PY
  sh typed > said 2>&1
}

# All sessions of examples/ are done, but the one of disk files, which no check knows: each has its verdict and a whole report, which is the one that stands there in serial mode.
all_done() {
  local session name
  for session in "$top"/examples/*.session; do
    name=$(basename "$session" .session)
    if [ "$name" = tracks ]; then continue; fi
    [ "$(cat "out/$name/verdict" 2> /dev/null)" = 'check ok' ] || fault "$1: $name is not done"
    if ! grep -q '^mode threads' "$session" && ! cmp -s "out/$name/report" "examples/$name.report"; then
      fault "$1: $name has another report than in examples/"
    fi
    [ "$(find "out/$name" -name 'record?.wav' | wc -l)" -eq "$(grep -c '^recorder ' "$session")" ] || fault "$1: $name has not a file for each recorder"
  done
}

# Puts a session with a fault on its first line beside the others, or takes it away.
with_faulty() {
  cp sessions/straight.capture.wav sessions/faulty.capture.wav
  echo fault > sessions/faulty.session
}
without_faulty() { rm -rf sessions/faulty.* out/faulty out/faulty.part; }

type_section 1 || fault "section 1: $(cat said)"

if [ "$(parallel --version 2> /dev/null | head -c 12)" = 'GNU parallel' ]; then
  tried+=', side by side'
  type_section 2 || fault "parallel: exit code $?, not 0: $(cat said)"
  all_done parallel
  with_faulty
  type_section 2
  code=$?
  [ $code -eq 1 ] || fault "parallel: exit code $code for one session that failed"
  all_done parallel
  [ "$(awk -F '\t' '$7 != 0 { print $7 }' out/joblog | xargs)" = 'Exitval 5' ] || fault "parallel: the joblog does not tell the exit code 5: $(cat out/joblog)"
  [ -e out/faulty.part ] && [ ! -e out/faulty ] || fault 'parallel: a session that failed leaves other folders'
  cp sessions/straight.session sessions/faulty.session
  parallel --retry-failed --joblog out/joblog > said 2>&1 || fault "parallel: what failed does not go when it is mended: $(cat said)"
  [ -e out/faulty/verdict ] && [ ! -e out/faulty.part ] || fault 'parallel: what was mended is not done'
  without_faulty
else
  echo 'check-batch: parallel: passed over, no GNU parallel'
fi

if command -v make > /dev/null; then
  tried+=', by make'
  rm -rf out
  type_section 3 || fault "make: exit code $?, not 0: $(cat said)"
  all_done make
  make -q || fault 'make: something is left to do'
  with_faulty
  type_section 3
  code=$?
  [ $code -eq 2 ] || fault "make: exit code $code for a session that failed"
  grep -q 'out/faulty/report\] Error 5$' said || fault "make: the exit code 5 is not told: $(cat said)"
  [ ! -e out/faulty/report ] || fault 'make: the report of a play that failed stays'
  all_done make
  without_faulty
  # A script that gets a fault loses the verdict of its earlier play.
  echo fault > sessions/straight.session
  type_section 3 && fault 'make: a script that got a fault is no failure'
  [ ! -e out/straight/report ] && [ ! -e out/straight/verdict ] || fault 'make: the verdict of an earlier play stays'
  cp examples/straight.session sessions
  type_section 3 || fault "make: exit code $? where a script was mended: $(cat said)"
  all_done make
  # A sample that is changed behind the check is found by the next one, and the report stays.
  printf '\7' | dd of=out/straight/playback.wav bs=1 seek=44 conv=notrunc 2> /dev/null
  rm out/straight/verdict
  type_section 3
  code=$?
  [ $code -eq 2 ] && grep -q 'out/straight/verdict\] Error 8$' said || fault "make: exit code $code where a sample was changed: $(cat said)"
  [ -e out/straight/report ] && [ ! -e out/straight/verdict ] || fault 'make: a check that failed leaves other files'
else
  echo 'check-batch: make: passed over, no make'
fi
[ $status -eq 0 ] && [ -n "$tried" ] && echo "check-batch: passed, $(find sessions -name '*.session' | wc -l) sessions$tried"
exit $status
