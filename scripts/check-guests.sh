#!/usr/bin/env bash
# docs/GUESTS.md leads from a copy of the example to a guest that is heard. All that it lets a maker type is typed here, in a copy
# of this checkout: its ```sh blocks in their order, each with what it prints where a ```text block follows, and each block
# whose first line has two words saved under the second. What was played is compared with values from paper. Every other
# block of code of the page stands so in the sources. /tmp is another folder here. With PROVE=1 the copied crate and the program
# with its guest are proved besides, over what `rt check` built here. Where a tool is missing the check is passed over.
set -u
cd "$(dirname "$0")/.." || exit 1
for tool in rt python3 git; do
  if ! command -v $tool > /dev/null; then
    echo "check-guests: passed over, no $tool"
    exit 0
  fi
done
python3 - <<'PY'
import array, os, re, shutil, subprocess, sys, tempfile, wave

HALF, PERIOD, LEVEL = 12000, 1024, 12000
faults = []


def stop(words):
    sys.exit(f'check-guests: {words}')


def copied(place):
    """The checkout without what was built, or with the libraries that were built where there is something to prove."""
    kept = lambda folder, names: [it for it in names if it == 'out']
    for name in ('crates', 'examples'):
        shutil.copytree(name, f'{place}/{name}', ignore=kept)
    for name in ('HANDLES', 'crates.txt'):
        shutil.copy(name, place)
    for crate in os.listdir('crates') if os.environ.get('PROVE') else []:
        if os.path.isdir(f'crates/{crate}/out/rlib'):
            shutil.copytree(f'crates/{crate}/out/rlib', f'{place}/crates/{crate}/out/rlib')


def run(words, place, path):
    done = subprocess.run(['bash', '-e', '-o', 'pipefail', '-c', words.replace('/tmp', path)], cwd=place, stdin=subprocess.DEVNULL, stdout=subprocess.PIPE, stderr=subprocess.PIPE, text=True)
    if done.returncode:
        stop(f'{words}\n-- ended with {done.returncode}:\n{done.stdout[-1000:]}{done.stderr[-3000:]}')
    return done.stdout


def from_paper(report):
    """Left and right, frame by frame: the square wave is 12,000 or less than 0 by as much, so its part in 12,000 is the gain."""
    frame, at = 0, 0
    for _, _, _, state, there, _ in (it.split() for it in report if it.startswith('cycle ')):
        first = int(there) if state == 'rolling' else frame
        for n in range(first, first + PERIOD):
            rising = min(n % (2 * HALF), 2 * HALF - n % (2 * HALF))
            sign = 1 if at % 128 < 64 else -1
            yield sign * rising
            yield sign * (LEVEL - rising)
            at += 1
        frame = (first + PERIOD) % (2 * HALF)


blocks = re.findall(r'^```(\S+)(?: (\S+))?\n(.*?)^```$', open('docs/GUESTS.md').read(), re.M | re.S)
sources = ''.join(open(f'{folder}/{name}').read() for top in ('client_kinds', 'guest_example', 'session_model')
                  for folder, _, names in os.walk(f'crates/{top}') if '/out' not in folder for name in names if name.endswith(('.rt', '.antt')))
with tempfile.TemporaryDirectory() as folder:
    place, path = f'{folder}/checkout', f'{folder}/tmp'
    os.mkdir(place)
    os.mkdir(path)
    copied(place)
    typed, printed = 0, None
    for language, name, text in blocks:
        said, printed = printed, None
        if name:
            open(f'{place}/{name}', 'w').write(text)
        elif language == 'sh':
            printed = run(text, place, path)
            typed += len(text.splitlines())
        elif language == 'text' and said is not None and said != text:
            faults.append(f'what is printed is\n{said}-- and not\n{text}')
        elif language in ('rust', 'antt') and text not in sources:
            faults.append(f'this stands nowhere in the sources:\n{text}')
    with wave.open(f'{path}/sway.wav') as played:
        samples = array.array('h', played.readframes(played.getnframes()))
        form = played.getnchannels(), played.getsampwidth(), played.getframerate()
    if sys.byteorder == 'big':
        samples.byteswap()
    wanted = array.array('h', from_paper(open(f'{path}/sway.report').read().splitlines()))
    wrong = next((at for at, (one, other) in enumerate(zip(samples, wanted)) if one != other), None)
    if form != (2, 2, 48000) or len(samples) != len(wanted) or not wanted:
        faults.append(f'{len(samples)} samples of {form} were played, and not {len(wanted)}')
    elif wrong is not None:
        faults.append(f'sample {wrong} of the playback is {samples[wrong]}, and on paper {wanted[wrong]}')
    if os.environ.get('PROVE'):
        for crate in ('sway', 'jackd'):
            run('rt check', f'{place}/crates/{crate}', path)
for fault in faults:
    print('check-guests:', fault)
if not faults:
    print(f'check-guests: passed, {typed} lines typed, {len(wanted)} samples from paper')
sys.exit(bool(faults))
PY
