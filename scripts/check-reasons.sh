#!/usr/bin/env bash
# Mistakes that users make, over the real program: each has its exit code, its line on standard output, its reason on
# standard error, and loses no file.
set -u
# shellcheck source=scripts/program.sh
. "$(dirname "$0")/program.sh" python3
folder=$(mktemp -d)
trap 'rm -rf "$folder"' EXIT
python3 - "$jackd" "$folder" <<'PY'
import hashlib, os, re, resource, shutil, signal, struct, subprocess, sys

program, folder = os.path.abspath(sys.argv[1]), sys.argv[2]
faults, tried = [], 0


def chunk(name, data):
    return name + struct.pack('<I', len(data)) + data + b'\0' * (len(data) % 2)


def form(tag=1, channels=1, rate=48000, bits=16, align=None, rest=b''):
    align = channels * (bits // 8) if align is None else align
    return struct.pack('<HHIIHH', tag, channels, rate, rate * align, align, bits) + rest


def wave(content=None, data=bytes(range(256)), before=b''):
    body = b'WAVE' + before + chunk(b'fmt ', form() if content is None else content) + chunk(b'data', data)
    return b'RIFF' + struct.pack('<I', len(body)) + body


HEADER = ['jackd 1', 'rate 48000', 'period 64', 'capture 1', 'playback 1 16', 'mode serial']
JOINED = 'do connect system:capture_1 system:playback_1'


def text(*lines, header=HEADER, end='\n'):
    return ''.join(line + end for line in [*header, *lines]).encode()


def report(calls, cycles, rest=()):
    lines = ['report 1', *calls, *cycles, *rest, 'end']
    return ''.join(line + '\n' for line in lines).encode()


def stopped(cycles, number):
    return [f'cycle {k} {number} stopped 0 -' for k in range(1, cycles + 1)]


# The header is six lines long; 64 frames of 2 bytes a cycle. A capture of 128 frames is as long as two cycles.
PLAY = ['play', 's', 'c', 'p']
GOOD = text(JOINED, 'run 2')
PLAYED = report(['call 0 1 ok 1'], stopped(2, 1))
# A script of two disk files, of one channel and of two.
TRACKS = text('run 2', header=['jackd 3', *HEADER[1:], 'disk 1', 'disk 2'])
ON_DISK = [*PLAY, '--disk', 'd', '--disk', 'e']
HELP = "try 'jackd --help'\n"


def sums(where):
    found = {}
    for at, _, names in os.walk(where):
        for name in names:
            path = os.path.join(at, name)
            if os.path.isfile(path):
                found[os.path.relpath(path, where)] = hashlib.sha256(open(path, 'rb').read()).hexdigest()
    return found


# One mistake: the words, the exit code, standard output and standard error, and the files that it may make or change.
def case(name, words, code, out, told, files=None, made=(), prepare=None, stdout=None, before=None, stdin=b''):
    global tried
    tried += 1
    where = os.path.join(folder, 'case')
    shutil.rmtree(where, ignore_errors=True)
    os.mkdir(where)
    for path, content in {'s': GOOD, 'c': wave(), **(files or {})}.items():
        if content is not None:
            open(os.path.join(where, path), 'wb').write(content)
    if prepare:
        prepare(where)
    kept = sums(where)
    how = {'stdout': subprocess.PIPE if stdout is None else stdout}
    ran = subprocess.run([program, *words], cwd=where, input=stdin, stderr=subprocess.PIPE,
        preexec_fn=before, timeout=100, **how)
    told = told if isinstance(told, bytes) else told.encode()
    if ran.returncode != code:
        faults.append(f'{name}: exit code {ran.returncode}, not {code}')
    if stdout is None and ran.stdout != out:
        faults.append(f'{name}: standard output {ran.stdout[:200]!r}, not {out[:200]!r}')
    if ran.stderr != told:
        faults.append(f'{name}: standard error\n  {ran.stderr[:900]!r}, not\n  {told[:900]!r}')
    now = sums(where)
    for path in sorted({*kept, *now} - {*made}):
        if kept.get(path) != now.get(path):
            faults.append(f'{name}: the file {path[:80]!r} changed')
    return where


def words_case(name, words, told):
    case(name, words, 2, b'fault 2 words\n', told + '\n' + HELP)


# 2: the words are no command.
words_case('no words', [], 'jackd: no command is given')
words_case('a misspelt command', ['plya', 's', 'c', 'p'], 'jackd: no command "plya"; is "play" meant?')
words_case('a command in capitals', ['Play', 's', 'c', 'p'], 'jackd: no command "Play"; is "play" meant?')
words_case('another command', ['convert', 's'], 'jackd: no command "convert"')
words_case('a misspelt option', ['--halp'], 'jackd: no option "--halp"; is "--help" meant?')
words_case('play alone', ['play'], 'jackd: play needs SCRIPT, CAPTURE and PLAYBACK; SCRIPT is missing')
words_case('a name too few', ['play', 's', 'c'], 'jackd: play needs SCRIPT, CAPTURE and PLAYBACK; PLAYBACK is missing')
words_case('an option without a path', [*PLAY, '--record'], 'jackd: "--record" needs a path')
words_case('one file twice', ['play', 's', 'c', 'c'], 'jackd: CAPTURE and PLAYBACK name one file: c')
words_case('one record twice', [*PLAY, '--record', 'r', '--record', 'r'], 'jackd: PATH and PATH name one file: r')
words_case('a misspelt record', [*PLAY, '--recrod', 'r'], 'jackd: no option "--recrod"; is "--record" meant?')
words_case('a word too many', [*PLAY, 'q'], 'jackd: "q" is one word too many: behind the names come options, as --record PATH')
words_case('standard input as the script', ['play', '-', 'c', 'p'], 'jackd: SCRIPT is "-"; standard input is named /dev/stdin')
words_case('standard input as the capture', ['play', 's', '-', 'p'], 'jackd: CAPTURE is "-"; standard input is named /dev/stdin')
words_case('standard input as the report', ['check', 's', 'c', '-', 'p'], 'jackd: REPORT is "-"; standard input is named /dev/stdin')
words_case('standard output as the playback', ['play', 's', 'c', '-'], 'jackd: PLAYBACK begins with "-"; a file is named ./-')
words_case('an option in one word', [*PLAY, '--record=r'], 'jackd: "--record=r" is two words: --record PATH')
words_case('a disk in one word', [*PLAY, '--disk=d'], 'jackd: "--disk=d" is two words: --disk PATH')
words_case('an option in one word as a name', ['play', '--record=r', 's', 'c', 'p'], 'jackd: "--record=r" is two words: --record PATH')
words_case('an end of options', ['play', '--', 's', 'c', 'p'], 'jackd: "--" is not needed: names come first, and options behind them')
words_case('an output option', ['play', 's', 'c', '-o', 'p'], 'jackd: no option "-o": PLAYBACK is the third name behind play')
words_case('a driver', ['-d', 'alsa'], 'jackd: no option "-d": there is no sound card, and two WAVE files stand for it')
words_case('five recorders', [*PLAY, *sum((['--record', f'r{k}'] for k in range(5)), [])], 'jackd: "--record" stands more than 4 times')
words_case('a misspelt strict play', [*PLAY, '--strikt'], 'jackd: no option "--strikt"; is "--strict" meant?')
words_case('a strict play of a word too many', ['play', '--strict', 's', 'c', 'p', 'q'],
    'jackd: "q" is one word too many: behind the names come options, as --record PATH')
words_case('a strict play of a name too few', ['play', '--strict', 's', 'c'],
    'jackd: play needs SCRIPT, CAPTURE and PLAYBACK; PLAYBACK is missing')
words_case('a path like the strict option', [*PLAY, '--record', '--strict'], 'jackd: PATH begins with "-"; a file is named ./--strict')
words_case('a strict check', ['check', 's', 'c', 'r', 'p', '--strict'], 'jackd: no option "--strict"')
words_case('a strict rehearsal', ['rehearse', '7', '--strict'], 'jackd: "--strict" is one word too many')
words_case('an empty name', ['play', 's', 'c', ''], 'jackd: PLAYBACK is empty, and names no file')
words_case('a name like an option', ['play', '-s', 'c', 'p'], 'jackd: SCRIPT begins with "-"; a file is named ./-s')
words_case('an option first', ['play', '--record', 'r', 's', 'c', 'p'], 'jackd: "--record" comes behind SCRIPT, CAPTURE and PLAYBACK')
words_case('five disk files', [*PLAY, *sum((['--disk', f'd{k}'] for k in range(5)), [])], 'jackd: "--disk" stands more than 4 times')
words_case('one disk file twice', [*PLAY, '--disk', 'd', '--disk', 'd'], 'jackd: PATH and PATH name one file: d')
words_case('a disk file that is the playback', [*PLAY, '--disk', 'p'], 'jackd: PLAYBACK and PATH name one file: p')
words_case('a disk option without a path', [*PLAY, '--disk'], 'jackd: "--disk" needs a path')
words_case('a record behind a disk', [*PLAY, '--disk', 'd', '--record', 'r'], 'jackd: "--record" stands before "--disk"')
words_case('rehearse alone', ['rehearse'], 'jackd: rehearse needs a NUMBER from 0 to 4294967295')
words_case('a misspelt rehearsal', ['rehears', '7'], 'jackd: no command "rehears"; is "rehearse" meant?')
for number in ('x', '-1', '', '4294967296', '00000000007'):
    words_case('no number', ['rehearse', number], f'jackd: "{number}" is no number of one to ten digits, 4294967295 at most')
words_case('two numbers', ['rehearse', '7', '8'], 'jackd: "8" is one word too many')
words_case('check alone', ['check'], 'jackd: check needs SCRIPT, CAPTURE, REPORT and PLAYBACK; SCRIPT is missing')
words_case('a check of no playback', ['check', 's', 'c', 'r'], 'jackd: check needs SCRIPT, CAPTURE, REPORT and PLAYBACK; PLAYBACK is missing')
words_case('a report that is the playback', ['check', 's', 'c', 'r', 'r'], 'jackd: REPORT and PLAYBACK name one file: r')
words_case('a record that is the report', ['check', 's', 'c', 'r', 'p', '--record', 'r'], 'jackd: REPORT and PATH name one file: r')
words_case('a check of a word too many', ['check', 's', 'c', 'r', 'p', 'q'],
    'jackd: "q" is one word too many: behind the names come options, as --record PATH')
words_case('a check of an option first', ['check', '--record', 't', 's', 'c', 'r', 'p'],
    'jackd: "--record" comes behind SCRIPT, CAPTURE, REPORT and PLAYBACK')
words_case('a check of an option without a path', ['check', 's', 'c', 'r', 'p', '--record'], 'jackd: "--record" needs a path')
words_case('a misspelt check', ['chek', 's', 'c', 'r', 'p'], 'jackd: no command "chek"; is "check" meant?')
words_case('a word that is no UTF-8', ['play', 's', b'c\xff', 'p'], 'jackd: word 3 is no UTF-8: c\\xff')
words_case('a word that steers a terminal', ['pl\x1b[2Jay'], 'jackd: no command "pl\\x1b[2Jay"')
words_case('a very long word', ['x' * 5000], 'jackd: no command "' + 'x' * 64 + '..."')
words_case('a long word of other letters', ['x' + '\u00f6' * 40], 'jackd: no command "x' + '\u00f6' * 31 + '..."')


# 3: a file can't be read.
def read_case(name, words, told, **more):
    case(name, words, 3, b'fault 3 read\n', told + '\n', **more)


read_case('no capture', ['play', 's', 'noc', 'p'], 'jackd: noc: No such file or directory')
read_case('no script', ['play', 'nos', 'c', 'p'], 'jackd: nos: No such file or directory')
read_case('a script that is a directory', ['play', '.', 'c', 'p'], 'jackd: .: Is a directory')
read_case('a capture that is a directory', ['play', 's', '.', 'p'], 'jackd: .: Is a directory')
read_case('a path through a file', ['play', 's/x', 'c', 'p'], 'jackd: s/x: Not a directory')
read_case('a name too long', ['play', 'n' * 300, 'c', 'p'], 'jackd: ' + 'n' * 300 + ': File name too long')
read_case('a path too long', ['play', 'd/' * 3000, 'c', 'p'], 'jackd: a name of more than 4096 bytes: File name too long')
read_case('a link to itself', ['play', 's', 'l', 'p'], 'jackd: l: Too many levels of symbolic links',
    prepare=lambda where: os.symlink('l', f'{where}/l'))
read_case('no disk file', ON_DISK, 'jackd: d: No such file or directory', files={'s': TRACKS})
read_case('no second disk file', ON_DISK, 'jackd: e: No such file or directory', files={'s': TRACKS, 'd': wave()})
read_case('a disk file that is a directory', [*PLAY, '--disk', '.', '--disk', 'e'], 'jackd: .: Is a directory', files={'s': TRACKS})
read_case('a name that steers a terminal', ['play', 's\x1b]0;x\x07', 'c', 'p'], 'jackd: s\\x1b]0;x\\x07: No such file or directory')
if os.geteuid():
    read_case('a script that may not be read', PLAY, 'jackd: s: Permission denied', prepare=lambda where: os.chmod(f'{where}/s', 0))


# 4: the capture is no WAVE file that is read.
def wave_case(name, content, line, told, file='c'):
    case(name, ['play', 's', file, 'p'], 4, f'fault 4 wave {line}\n'.encode(), f'jackd: {file}: {told}\n', files={file: content})


GUID = bytes.fromhex('000000001000800000aa00389b71')
CONVERT = 'sox c -e signed-integer -b 24 new.wav'
wave_case('float samples', wave(form(tag=3, bits=32)), 'BadFormat Tag 3',
    'float samples (tag 3) are not read: sox float.wav -e signed-integer -b 24 new.wav', 'float.wav')
SOX = 'are not read: sox c -e signed-integer -b 24 new.wav'
FFMPEG = 'are not read: ffmpeg -i c -c:a pcm_s24le new.wav'
wave_case('a FLAC file', b'fLaC' + bytes(60), 'NotRiff', 'FLAC files are not read: sox c.flac -e signed-integer -b 24 new.wav', 'c.flac')
wave_case('an AIFF file', b'FORM' + bytes(60), 'NotRiff', f'AIFF files {SOX}')
wave_case('an Ogg file', b'OggS' + bytes(60), 'NotRiff', f'Ogg files {SOX}')
wave_case('a RIFX file', b'RIFX' + wave()[4:], 'NotRiff', f'RIFX files, with the high byte first, {SOX}')
wave_case('a W64 file', b'riff' + bytes(60), 'NotRiff', f'W64 files {FFMPEG}')
wave_case('an RF64 file', b'RF64' + wave()[4:], 'NotRiff', f'RF64 files {FFMPEG}')
wave_case('an MP3 file', b'ID3\x03' + bytes(60), 'NotRiff', f'MP3 files {FFMPEG}')
wave_case('a text', b'hello, this is no sound', 'NotRiff', 'no RIFF WAVE file (begins "hell")')
wave_case('bytes', bytes(64), 'NotRiff', 'no RIFF WAVE file (begins "\\x00\\x00\\x00\\x00")')
wave_case('an empty capture', b'', 'Ends 0', 'the file is empty')
wave_case('a cut capture', wave()[:20], 'Ends 20', 'the file ends after 20 bytes, within its header')
wave_case('another form', b'RIFF' + bytes(4) + b'AVI ' + bytes(60), 'NotWave', 'a RIFF file, whose form is not WAVE')
wave_case('no format', b'RIFF' + bytes(4) + b'WAVE' + chunk(b'data', bytes(8)), 'NoFormat', 'no "fmt " chunk stands before the samples')
wave_case('no samples', b'RIFF' + bytes(4) + b'WAVE' + chunk(b'fmt ', form()), 'NoData', 'the file ends without a "data" chunk')
wave_case('ADPCM', wave(form(tag=2)), 'BadFormat Tag 2', f'ADPCM samples (tag 2) are not read: {CONVERT}')
wave_case('an unknown tag', wave(form(tag=999)), 'BadFormat Tag 999', f'samples (tag 999) are not read: {CONVERT}')
wave_case('17 channels', wave(form(channels=17)), 'BadFormat Channels 17', '17 channels are not read: 1 to 16 are')
wave_case('no rate', wave(form(rate=0)), 'BadFormat Rate 0', 'its rate is 0 frames a second')
wave_case('12 bits', wave(form(bits=12)), 'BadFormat Bits 12', f'12 bits a sample are not read: 8, 16, 24 and 32 are: {CONVERT}')
wave_case('frames of another size', wave(form(align=3)), 'BadFormat Align 3', 'a frame has 3 bytes, which its channels and bits do not give')
wave_case('a short format', wave(form()[:14]), 'BadFormat Size 14', 'its "fmt " chunk has 14 bytes, at least 16 are needed')
wave_case('a short extension', wave(form(tag=0xfffe, rest=bytes(2))), 'BadFormat Extended 18', 'its extended "fmt " chunk has 18 bytes, at least 40 are needed')
wave_case('an extension of few bytes', wave(form(tag=0xfffe, rest=struct.pack('<H', 10) + bytes(22))), 'BadFormat Extra 10',
    'its "fmt " chunk is extended by 10 bytes, at least 22 are needed')
wave_case('floats in an extended format', wave(form(tag=0xfffe, bits=32, rest=struct.pack('<HHI', 22, 32, 0) + b'\3\0' + GUID)),
    'BadFormat Guid 3', f'float samples (subformat 3) are not read: {CONVERT}')
for disk, other in ({'d': b'hello, this is no sound'}, 'd'), ({'d': wave(), 'e': b'hello, this is no sound'}, 'e'):
    case('a text as a disk file', ON_DISK, 4, b'fault 4 wave NotRiff\n', f'jackd: {other}: no RIFF WAVE file (begins "hell")\n', files={'s': TRACKS, **disk})
case('a disk file of float samples', ON_DISK, 4, b'fault 4 wave BadFormat Tag 3\n',
    'jackd: d: float samples (tag 3) are not read: sox d -e signed-integer -b 24 new.wav\n', files={'s': TRACKS, 'd': wave(form(tag=3, bits=32))})
wave_case('very many chunks', wave(before=chunk(b'junk', b'') * 4096), 'TooManyChunks', '4096 chunks stand before its samples')


# 5: the script can't be played.
def script_case(name, script, line, cause, told, below=None):
    shown = '' if below is None else f'    {below}\n'
    place = 'jackd: s: ' if line == 0 else f'jackd: s:{line}: '
    case(name, PLAY, 5, f'fault 5 script {line} {cause}\n'.encode(), place + told + '\n' + shown, files={'s': script})


def body_case(name, line, cause, told, before=(), version=1, below=None):
    header = [f'jackd {version}', *HEADER[1:]]
    script_case(name, text(*before, line, 'run 2', header=header), 7 + len(before), cause, told, line if below is None else below)


def header_case(name, place, line, cause, told):
    header = [*HEADER]
    header[place - 1] = line
    script_case(name, text(JOINED, 'run 2', header=header), place, cause, told, line)


script_case('an empty script', b'', 1, 'Header', '"jackd" is expected here')
script_case('a script of comments', b'# nothing\n\n', 3, 'Header', '"jackd" is expected here')
script_case('a byte order mark', b'\xef\xbb\xbf' + GOOD, 1, 'Header', 'begins with a byte order mark', '\\xef\\xbb\\xbfjackd 1')
for name, line, shown, cause, told in (
        ('a line whose direction turns', 'jackd \u202e1', 'jackd \\xe2\\x80\\xae1', 'Number', '"\\xe2\\x80\\xae1" is no number of 1 to 10 digits'),
        ('a space that does not break', 'jackd\u00a01', 'jackd\\xc2\\xa01', 'Header', '"jackd" is expected here'),
        ('a space of no width', 'jackd 1\u200b', 'jackd 1\\xe2\\x80\\x8b', 'Number', '"1\\xe2\\x80\\x8b" is no number of 1 to 10 digits')):
    script_case(name, text(JOINED, 'run 2', header=[line, *HEADER[1:]]), 1, cause, told, shown)
script_case('a script in UTF-16', '\ufeffjackd 1\n'.encode('utf-16-le'), 1, 'Header', '"jackd" is expected here',
    '\\xff\\xfej\\x00a\\x00c\\x00k\\x00d\\x00 \\x001\\x00')
header_case('a missing rate', 2, 'period 64', 'Header', '"rate" is expected here')
header_case('a header in capitals', 1, 'JACKD 1', 'Header', '"jackd" is expected here')
header_case('another version', 1, 'jackd 4', 'Choice', 'version 4 is none; 1, 2 and 3 are')
header_case('a rate too low', 2, 'rate 44', 'Range', '"44" is outside 8000 to 192000')
header_case('a rate with a unit', 2, 'rate 48kHz', 'Number', '"48kHz" is no number of 1 to 10 digits')
header_case('no power of two', 3, 'period 100', 'Choice', '100 is no power of two')
header_case('no channels', 4, 'capture 0', 'Range', '"0" is outside 1 to 8')
header_case('12 bits written', 5, 'playback 1 12', 'Choice', '12 bits are not 8, 16, 24 or 32')
header_case('no bits', 5, 'playback 1', 'Words', 'a word is missing: playback CHANNELS BITS')
header_case('another mode', 6, 'mode parallel', 'Unknown', 'no mode "parallel"; serial or threads is expected')
header_case('a mode of version 3', 6, 'mode steal 2', 'Unknown', 'mode "steal" is of version 3')
header_case('a misspelt mode', 6, 'mode seriel', 'Unknown', 'no mode "seriel"; is "serial" meant?')
header_case('a misspelt mode of version 3', 6, 'mode steel 2', 'Unknown', 'no mode "steel"; serial or threads is expected')
script_case('a misspelt mode in version 3', text('run 2', header=['jackd 3', *HEADER[1:5], 'mode steel 2']), 6, 'Unknown', 'no mode "steel"; is "steal" meant?', 'mode steel 2')
body_case('a misspelt line', 'rum 3', 'Unknown', 'no line "rum"; is "run" meant?')
body_case('a misspelt command', 'do conect system:capture_1 system:playback_1', 'Unknown', 'no command "conect"; is "connect" meant?')
body_case('no do', 'connect system:capture_1 system:playback_1', 'Unknown',
    'no line "connect"; do, run, freewheel, lane, ring, drain or recorder is expected')
body_case('a misspelt kind', 'do open a gian 1 1', 'Unknown', 'no kind "gian"; is "gain" meant?')
body_case('a misspelt kind of version 3', 'do open a midipla 0', 'Unknown',
    'no kind "midipla"; pass, gain, mix, delay, tone, click, meter, record or guest is expected', version=2)
body_case('a misspelt kind in version 3', 'do open a midipla 0', 'Unknown', 'no kind "midipla"; is "midiplay" meant?', version=3)
body_case('a misspelt period in version 1', 'peroid 128', 'Unknown', 'no line "peroid"; do, run, freewheel, lane, ring, drain or recorder is expected')
body_case('a misspelt period', 'peroid 128', 'Unknown', 'no line "peroid"; is "period" meant?', version=2)
body_case('a misspelt event', 'evnt 0 0 90', 'Unknown', 'no line "evnt"; is "event" meant?', version=3)
body_case('a misspelt way', 'do register a:x inn audio', 'Unknown', 'no word "inn"; is "in" meant?')
body_case('no such type', 'do register a:x in video', 'Unknown', 'no word "video"; audio or midi is expected')
body_case('a command that steers a terminal', 'do op\x1ben a pass', 'Unknown', 'no command "op\\x1ben"; is "open" meant?',
    below='do op\\x1ben a pass')
body_case('a kind of version 3', 'do open a midiplay 0', 'Unknown', 'kind "midiplay" is of version 3')
body_case('a period in version 1', 'period 128', 'Unknown', '"period" stands in the body from version 2 on, without disks')
body_case('a header line behind the body', 'ring 2', 'Unknown', '"ring" is a line of the header, and not in this place or version',
    before=[JOINED])
body_case('a word missing', 'do open a', 'Words', 'a word is missing: open CLIENT KIND')
body_case('a word left over', 'do start now', 'Words', '"now" is left over: start')
body_case('a comment behind a line', 'run 2 # twice', 'Words', '"#" is left over: run CYCLES; a comment is a line of its own')
body_case('a gain as a fraction', 'do open a gain 0.5', 'Number',
    '"0.5" is no number of 1 to 10 digits: numbers are whole, and a gain of a half is "gain 1 1"')
body_case('no cycles', 'run 0', 'Range', '"0" is outside 1 to 1000000')
body_case('very many cycles', 'run 9999999999', 'Range', '"9999999999" is outside 1 to 1000000')
body_case('more digits than a number has', 'run 99999999999', 'Number', '"99999999999" is no number of 1 to 10 digits')
body_case('a number below none', 'do locate -1', 'Number', 'a number of 1 to 10 digits is expected, without a sign')
body_case('a name of other letters', 'do open Gr\u00f6\u00dfe pass', 'Name', 'a name has 1 to 32 of A-Z a-z 0-9 . _ -')
body_case('a long name', 'do open ' + 'n' * 33 + ' pass', 'Name', 'a name has 1 to 32 of A-Z a-z 0-9 . _ -')
script_case('a name that is no UTF-8', text('run 2').replace(b'run', b'do open \xff pass\nrun'), 7, 'Name', 'a name has 1 to 32 of A-Z a-z 0-9 . _ -',
    'do open \\xff pass')
body_case('a port without a client', 'do connect capture_1 system:playback_1', 'Name',
    'a port is CLIENT:PORT, of A-Z a-z 0-9 . _ -, the client 1 to 32 of them, 64 in all')
body_case('a record without a recorder', 'do open t record 0', 'Range', '"0" is the number of none: the header has no such line')
body_case('a player without a disk', 'do open t disk 0', 'Range', '"0" is the number of none: the header has no such line', version=3)
body_case('a lane without a segment', 'lane 1 at 0 start', 'Lane', 'no "run" or "freewheel" line is open before this call of a lane')
body_case('a lane that falls behind', 'lane 1 at 2 stop', 'Lane', 'cycle 2 falls behind 3, the call before of lane 1',
    before=['run 9', 'lane 1 at 3 start'])
body_case('a cycle behind the segment', 'lane 1 at 11 start', 'Range', '"11" is outside 0 to 10', before=['run 10'])
body_case('no at', 'lane 1 in 3 start', 'Unknown', 'no word "in"; at is expected', before=['run 10'])
body_case('very many opens', 'do open z pass', 'TooMany', 'more than 256 calls of open', before=['do open a mix'] * 256)
script_case('very many samples', text('period 4096', 'run 122071', header=['jackd 2', *HEADER[1:]]), 8, 'TooLong',
    'more than 2000000000 bytes of samples would be played', 'run 122071')
script_case('a very long script', GOOD + b'\n' * 1048576, 0, 'TooLong', 'more than 1048576 bytes are no script')
script_case('a long line of other letters', text('do open ' + '\u20ac' * 50), 7, 'Name', 'a name has 1 to 32 of A-Z a-z 0-9 . _ -',
    'do open ' + '\u20ac' * 37 + '...')
script_case('a very long line', text('do open ' + 'n' * 500), 7, 'Name', 'a name has 1 to 32 of A-Z a-z 0-9 . _ -',
    'do open ' + 'n' * 112 + '...')
case('an empty script from a pipe', ['play', '/dev/stdin', 'c', 'p'], 5, b'fault 5 script 1 Header\n',
    'jackd: /dev/stdin:1: "jackd" is expected here\n')
case('a script from a pipe', ['play', '/dev/stdin', 'c', 'p'], 5, b'fault 5 script 7 Unknown\n',
    'jackd: /dev/stdin:7: no command "strat"; is "start" meant?\n    do strat\n', stdin=text('do strat', 'run 2'))
case('lines that end by CR LF', PLAY, 0, PLAYED, '', files={'s': text(JOINED, 'run 2', end='\r\n')}, made=['p'])
script_case('a fault behind CR LF', text('do strat', 'run 2', end='\r\n'), 7, 'Unknown', 'no command "strat"; is "start" meant?', 'do strat')


# 6: a file or standard output can't be written.
def write_case(name, words, told, **more):
    case(name, words, 6, b'', told + '\n', **more)


write_case('no such folder', ['play', 's', 'c', 'nod/p'], 'jackd: nod/p: No such file or directory; nothing was written')
write_case('a playback that is a directory', ['play', 's', 'c', '.'], 'jackd: .: Is a directory; nothing was written')
write_case('the capture by another name', ['play', 's', 'c', './c'], 'jackd: ./c: is the capture c; nothing was written')
write_case('the script by a link', ['play', 's', 'c', 'l'], 'jackd: l: is the script s; nothing was written',
    prepare=lambda where: os.symlink('s', f'{where}/l'))
write_case('the playback by another name', [*PLAY, '--record', './p'], 'jackd: ./p: is the playback p; nothing was written',
    files={'s': text('do start', 'run 2', header=[*HEADER, 'recorder 1 16']), 'p': b'kept'})
write_case('a disk file as the playback', ['play', 's', 'c', './d', '--disk', 'd', '--disk', 'e'], 'jackd: ./d: is the disk file d; nothing was written',
    files={'s': TRACKS, 'd': wave(), 'e': wave(form(channels=2))})
write_case('a disk file as a record, by a link', [*PLAY, '--record', 'l', '--disk', 'd', '--disk', 'e'], 'jackd: l: is the disk file e; nothing was written',
    files={'s': TRACKS.replace(b'disk 1', b'recorder 1 16\ndisk 1'), 'p': b'kept', 'd': wave(), 'e': wave(form(channels=2))}, prepare=lambda where: os.symlink('e', f'{where}/l'))
LONG = {'s': text(JOINED, 'run 2000')}


def few_bytes(most=65536):
    signal.signal(signal.SIGXFSZ, signal.SIG_IGN)
    resource.setrlimit(resource.RLIMIT_FSIZE, (most, most))


# 65,536 bytes hold a header of 44, and (65536 - 44) / 2 frames.
write_case('a full disk', PLAY, 'jackd: p: File too large; 32746 frames stand, sizes unset (sox --ignore-length reads it)', files=LONG,
    made=['p'], before=few_bytes)
if os.geteuid():
    write_case('a playback that may not be written', PLAY, 'jackd: p: Permission denied; nothing was written', files={'p': b'kept'},
        prepare=lambda where: os.chmod(f'{where}/p', 0o444))
CUT = '; the report is cut, the files are whole\n'
if os.path.exists('/dev/full'):
    with open('/dev/full', 'wb') as full:
        where = case('a full standard output', PLAY, 6, None, 'jackd: standard output: No space left on device' + CUT, made=['p'], stdout=full)
        if len(open(f'{where}/p', 'rb').read()) != 44 + 2 * 128:
            faults.append('a full standard output: the playback is not whole')
        case('a fault line that finds no room', ['play', 's'], 2, None,
            'jackd: play needs SCRIPT, CAPTURE and PLAYBACK; CAPTURE is missing\n' + HELP, stdout=full)
        case('a rehearsal and a full standard output', ['rehearse', '7'], 6, None,
            'jackd: standard output: No space left on device; the lines are cut\n', stdout=full)
with open(os.path.join(folder, 'front'), 'w+b') as front:
    case('a fault line that finds room for five bytes', ['plya'], 2, None, 'jackd: no command "plya"; is "play" meant?\n' + HELP,
        stdout=front, before=lambda: few_bytes(5))
    front.seek(0)
    if front.read() != b'fault':
        faults.append('a fault line that finds room for five bytes: standard output is not its front')
case('a closed standard output', PLAY, 6, None, 'jackd: standard output: Bad file descriptor' + CUT, made=['p'], stdout=subprocess.DEVNULL,
    before=lambda: os.close(1))
case('a fault line without standard output', ['plya'], 2, None, 'jackd: no command "plya"; is "play" meant?\n' + HELP,
    stdout=subprocess.DEVNULL, before=lambda: os.close(1))


# 7: the script and what it is played with differ.
def differs_case(name, line, told, files=None, words=PLAY):
    case(name, words, 7, f'fault 7 differs {line}\n'.encode(), f'jackd: {told}\n', files=files)


differs_case('another rate', 'Rate 48000 44100', 'the script has rate 48000, r44.wav has 44100: sox r44.wav -r 48000 new.wav',
    {'r44.wav': wave(form(rate=44100))}, ['play', 's', 'r44.wav', 'p'])
differs_case('two channels', 'Channels 1 2', 'the script has capture 1, c has 2 channels: sox c -c 1 new.wav', {'c': wave(form(channels=2))})
differs_case('one channel', 'Channels 2 1', 'the script has capture 2, c d.wav has 1 channel: sox \'c d.wav\' -c 2 new.wav',
    {'s': text('run 2', header=[*HEADER[:3], 'capture 2', *HEADER[4:]]), 'c d.wav': wave()}, ['play', 's', 'c d.wav', 'p'])
differs_case('a guest that is not there', 'Guests 4 3', 's:9: guest 3: only 0, 1 and 2 are handed in',
    {'s': text('do open a guest 1', '# the last one', 'do open b guest 3', 'run 2')})
differs_case('a recorder without a file', 'Records 1 0', 'the script has 1 recorder, --record was given 0 times',
    {'s': text('run 2', header=[*HEADER, 'recorder 1 16'])})
differs_case('a file without a recorder', 'Records 0 2', 'the script has 0 recorders, --record was given 2 times', None,
    [*PLAY, '--record', 'r', '--record', 'q'])
differs_case('disks without files', 'Disks 2 0', 'the script has 2 disk files, --disk was given 0 times', {'s': TRACKS})
differs_case('a disk file of another rate', 'DiskRate 48000 44100', 'the script has rate 48000, e has 44100: sox e -r 48000 new.wav',
    {'s': TRACKS, 'd': wave(), 'e': wave(form(rate=44100))}, ON_DISK)
differs_case('a disk file of other channels', 'DiskChannels 1 2', 'the script has disk 1, d has 2 channels: sox d -c 1 new.wav',
    {'s': TRACKS, 'd': wave(form(channels=2))}, ON_DISK)
differs_case('a second disk file of other channels', 'DiskChannels 2 1', 'the script has disk 2, e has 1 channel: sox e -c 2 new.wav',
    {'s': TRACKS, 'd': wave(), 'e': wave()}, ON_DISK)
differs_case('a disk file', 'Disks 0 1', 'the script has 0 disk files, --disk was given 1 time', {'d': wave()}, [*PLAY, '--disk', 'd'])

# Two mistakes at once: a file that can't be made is told last, since no file is made before all is read.
PLACELESS = ['play', 's', 'c', 'nod/p']
case('a faulty script, and no place for the playback', PLACELESS, 5, b'fault 5 script 7 Unknown\n',
    'jackd: s:7: no command "strat"; is "start" meant?\n    do strat\n', files={'s': text('do strat', 'run 2')})
case('a text as the capture, and no place for the playback', PLACELESS, 4, b'fault 4 wave NotRiff\n',
    'jackd: c: no RIFF WAVE file (begins "hell")\n', files={'c': b'hello, this is no sound'})
case('a missing capture, and no place for the playback', ['play', 's', 'noc', 'nod/p'], 3, b'fault 3 read\n',
    'jackd: noc: No such file or directory\n')
differs_case('two channels, and no place for the playback', 'Channels 1 2',
    'the script has capture 1, c has 2 channels: sox c -c 1 new.wav', {'c': wave(form(channels=2))}, PLACELESS)

# 0: what was refused is told, and nothing else.
case('nothing wrong', PLAY, 0, PLAYED, '', made=['p'])
calls = ['call 0 1 ok 1', 'call 0 2 ok 2', 'call 0 3 refused 15 Inactive', 'call 0 4 refused 1 NoClient', 'call 0 5 refused 3 IsOpen',
    'call 0 6 refused 10 NoSource', 'call 0 7 refused 4 IsSystem']
case('refused calls', PLAY, 0, report(calls, stopped(2, 2)),
    'jackd: s:10: connect system:capture_1 tape:in: refused 15 Inactive (tape is not active)\n'
    'jackd: s:11: activate tap: refused 1 NoClient (no client tap is open)\n'
    'jackd: s:12: open tape mix: refused 3 IsOpen (tape is open already)\n'
    'jackd: s:13: connect tape:no tape:in: refused 10 NoSource (there is no port tape:no)\n'
    'jackd: s:14: close system: refused 4 IsSystem (system is not a client that a call changes)\n'
    'jackd: 5 of 7 calls were refused\n',
    files={'s': text('do open tape gain 1 0', 'do register tape:in in audio', '# the client is not active yet',
        'do connect system:capture_1 tape:in', 'do activate tap', 'do open tape mix', 'do connect tape:no tape:in', 'do close system', 'run 2')},
    made=['p'])
many = [f'do close c{k}' for k in range(1, 31)]
case('very many refused calls', PLAY, 0, report([f'call 0 {k} refused 1 NoClient' for k in range(1, 31)], stopped(2, 0)),
    ''.join(f'jackd: s:{k + 6}: close c{k}: refused 1 NoClient (no client c{k} is open)\n' for k in range(1, 21))
    + 'jackd: and 10 more; 30 of 30 calls were refused\n', files={'s': text(*many, 'run 2')}, made=['p'])
REFUSED = report(['call 0 1 refused 1 NoClient'], stopped(2, 0))
for place in ('s', '/dev/stdin'):
    case('one call', ['play', place, 'c', 'p'], 0, REFUSED,
        f'jackd: {place}:7: close a: refused 1 NoClient (no client a is open)\njackd: 1 of 1 call was refused\n',
        files={'s': text('do close a', 'run 2')}, made=['p'], stdin=text('do close a', 'run 2'))
case('a refused call of a lane', PLAY, 0, report(['call 0 1 ok 1', 'call 3 1 latency 0 0', 'call 3 2 refused 18 NotConnected'], stopped(4, 1)),
    'jackd: s:10: disconnect system:capture_1  system:playback_1: refused 18 NotConnected (they are not connected)\n'
    'jackd: 1 of 3 calls was refused\n',
    files={'s': text('do open a pass', 'run 4', 'lane 3 at 1 latency capture system:capture_1',
        'lane 3\tat 1   disconnect system:capture_1  system:playback_1'), 'c': wave(data=bytes(512))}, made=['p'])

# Lost blocks: a ring of two places that nothing leaves. Cycle 3 begins at frame 128, which is 2.67 thousandths of a second.
OPENED = ['do open tape record 0', 'do register tape:in in audio', 'do activate tape', 'do connect system:capture_1 tape:in']
TAPED = [f'call 0 {k} ok {k}' for k in range(1, 5)]
DRAIN = 'jackd: "drain 1" loses no block, nor does a "freewheel" segment\n'
LOST = {'c': wave(data=bytes(512)), 's': text(*OPENED, 'run 4', header=[*HEADER, 'ring 2', 'drain 0', 'recorder 1 16'])}
TOLD = 'jackd: t: 2 of 4 blocks were lost, the first in cycle 3 (second 0.002); the file is shifted from there on\n' + DRAIN
OVERRUN = report(TAPED, stopped(4, 4), ['recorder 0 2 2', 'overrun 0 3 2 0', 'overrun 0 4 2 0'])
case('lost blocks', [*PLAY, '--record', 't'], 0, OVERRUN, TOLD, files=LOST, made=['p', 't'])
case('lost blocks of a script from a pipe', ['play', '/dev/stdin', 'c', 'p', '--record', 't'], 0, OVERRUN, TOLD,
    files={'c': LOST['c']}, made=['p', 't'], stdin=LOST['s'])
# A freewheel segment loses none of its 747 blocks, and the ring takes two of the next five: cycle 750 begins at frame 47936.
later = text(*OPENED, 'freewheel 747', 'run 5', header=[*HEADER, 'ring 2', 'drain 0', 'recorder 1 16'])
case('blocks lost behind a freewheel segment', [*PLAY, '--record', 't'], 0,
    report(TAPED, stopped(752, 4), ['recorder 0 749 3', *(f'overrun 0 {k} 749 747' for k in (750, 751, 752))]),
    'jackd: t: 3 of 752 blocks were lost, the first in cycle 750 (second 0.998); the file is shifted from there on\n' + DRAIN,
    files={'c': wave(data=bytes(640)), 's': later}, made=['p', 't'])
case('one lost block of the second recorder, and a refused call', [*PLAY, '--record', 't', '--record', 'u'], 0,
    report([*(it for it in TAPED[:3]), 'call 0 4 refused 1 NoClient'], stopped(3, 3), ['recorder 0 0 0', 'recorder 1 2 1', 'overrun 1 3 2 0']),
    'jackd: s:14: close t: refused 1 NoClient (no client t is open)\njackd: 1 of 4 calls was refused\n'
    'jackd: u: 1 of 3 blocks was lost, in cycle 3 (second 0.002); the file is shifted from there on\n' + DRAIN,
    files={'c': wave(data=bytes(384)), 's': text('do open tape record 1', *OPENED[1:3], 'do close t', 'run 3',
        header=[*HEADER, 'ring 2', 'drain 0', 'recorder 1 8', 'recorder 1 16'])}, made=['p', 't', 'u'])

# Code 9 comes of a strict play alone, and with it the same report and files.
case('a strict play of lost blocks', ['play', '--strict', *PLAY[1:], '--record', 't'], 9, OVERRUN, TOLD, files=LOST, made=['p', 't'])
case('a strict play of a refused call', [*PLAY, '--strict'], 9, REFUSED,
    'jackd: s:7: close a: refused 1 NoClient (no client a is open)\njackd: 1 of 1 call was refused\n',
    files={'s': text('do close a', 'run 2')}, made=['p'])
# Underruns: blocks are put into the ring in the freewheel cycle alone, two of them, of which that cycle plays one.
LATE = ['jackd 3', *HEADER[1:], 'ring 2', 'fill 0']
FILL = 'jackd: "fill 1" has no underrun, nor has a "freewheel" segment\n'
PLAYER = ['do open d disk 0', 'do activate d']
UNDERRUN = {'s': text(*PLAYER, 'run 2', header=[*LATE, 'disk 1']), 'd': wave()}
MISSED = report(TAPED[:2], stopped(2, 2), ['disk 0 0 2', 'underrun 0 1 0 0', 'underrun 0 2 0 0'])
TOLD_LATE = 'jackd: d: 2 underruns beside 0 blocks played, the first in cycle 1 (second 0.000); each is silent, and the track is late from there on\n' + FILL
case('underruns', [*PLAY, '--disk', 'd'], 0, MISSED, TOLD_LATE, files=UNDERRUN, made=['p'])
case('a strict play of underruns', ['play', '--strict', *PLAY[1:], '--disk', 'd'], 9, MISSED, TOLD_LATE, files=UNDERRUN, made=['p'])
case('underruns of a script from a pipe', ['play', '/dev/stdin', 'c', 'p', '--disk', 'd'], 0, MISSED, TOLD_LATE, files={'d': wave()}, made=['p'], stdin=UNDERRUN['s'])
case('one underrun', [*PLAY, '--disk', 'd'], 0, report(TAPED[:2], stopped(3, 2), ['disk 0 2 1', 'underrun 0 3 2 2']),
    'jackd: d: 1 underrun beside 2 blocks played, in cycle 3 (second 0.002); it is silent, and the track is late from there on\n' + FILL,
    files={'s': text(*PLAYER, 'freewheel 1', 'run 2', header=[*LATE, 'disk 1']), 'd': wave(data=bytes(512))}, made=['p'])
case('underruns of the second disk, and a lost block', [*PLAY, '--record', 't', '--disk', 'd', '--disk', './d'], 0,
    report(TAPED, stopped(4, 4), ['recorder 0 3 1', 'overrun 0 4 3 1', 'disk 0 0 0', 'disk 1 2 2', 'underrun 1 3 2 2', 'underrun 1 4 2 2']),
    'jackd: t: 1 of 4 blocks was lost, in cycle 4 (second 0.004); the file is shifted from there on\n' + DRAIN
    + 'jackd: ./d: 2 underruns beside 2 blocks played, the first in cycle 3 (second 0.002); each is silent, and the track is late from there on\n' + FILL,
    files={'s': text('do open t record 0', 'do activate t', 'do open d disk 1', 'do activate d', 'freewheel 1', 'run 3',
        header=['jackd 3', *HEADER[1:], 'ring 2', 'drain 0', 'fill 0', 'recorder 1 16', 'disk 1', 'disk 1']), 'd': wave(data=bytes(512))}, made=['p', 't'])
case('a strict play of nothing wrong', ['play', 's', '--strict', 'c', 'p', '--strict'], 0, PLAYED, '', made=['p'])
case('a strict play of a faulty script', [*PLAY, '--strict'], 5, b'fault 5 script 7 Unknown\n',
    'jackd: s:7: no command "strat"; is "start" meant?\n    do strat\n', files={'s': text('do strat', 'run 2')})
case('a strict play into no folder', ['play', '--strict', 's', 'c', 'nod/p'], 6, b'',
    'jackd: nod/p: No such file or directory; nothing was written\n')


# A capture that the session does not fit: GOOD captures 128 frames.
def capture_case(name, content, told, place='c', session=GOOD, out=PLAYED):
    case(name, ['play', 's', place, 'p'], 0, out, f'jackd: {place}: {told}\n' if told else '', files={'s': session, 'c': content}, made=['p'],
        stdin=content)


EIGHT = wave(data=bytes(16))
for place in ('c', '/dev/stdin'):
    capture_case('a short capture', EIGHT, 'has 8 of the 128 frames that the session captures, and silence follows', place)
    capture_case('an empty capture', wave(data=b''), 'has 0 of the 128 frames that the session captures, and silence follows', place)
    capture_case('a long capture', wave(data=bytes(512)), 'has 256 frames, and the session captures the first 128', place)
    capture_case('a capture of one frame too many', wave(data=bytes(258)), 'has 129 frames, and the session captures the first 128', place)
    # 40 bytes are promised, and 17 are there: eight frames and a byte.
    capture_case('a capture that ends inside its data', wave(data=bytes(40))[:-23],
        'ends inside its data: 17 of 40 bytes are there; it has 8 of the 128 frames that the session captures, and silence follows', place)
    capture_case('a capture that fits', wave(before=chunk(b'LIST', bytes(301))), '', place)
capture_case('a capture that ends inside its data, behind the session', wave(data=bytes(512))[:-100],
    'ends inside its data: 412 of 512 bytes are there; it has 206 frames, and the session captures the first 128')
capture_case('a capture that ends inside its data, where the session ends', wave(data=bytes(512))[:-256],
    'ends inside its data: 256 of 512 bytes are there')
# What writes into a pipe can't set the size.
for size in (0x7ffff000, 0xffffffff):
    unset = EIGHT[:40] + struct.pack('<I', size) + EIGHT[44:]
    capture_case('a capture of no size', unset, 'has 8 of the 128 frames that the session captures, and silence follows')
    unset = wave()[:40] + struct.pack('<I', size) + wave()[44:]
    capture_case('a capture of no size that fits', unset, '')
    capture_case('a longer capture of no size from a pipe', unset + bytes(100), '', '/dev/stdin')
capture_case('a capture of a session that hears none', wave(), 'has 128 frames, and the session captures the first 0',
    session=text(JOINED, 'freewheel 2'))
capture_case('a capture that the script does not name', EIGHT, '', session=text('run 2'), out=report([], stopped(2, 0)))
capture_case('a capture at two periods', EIGHT, 'has 8 of the 96 frames that the session captures, and silence follows',
    session=text(JOINED, 'run 1', 'period 32', 'run 1', header=['jackd 2', *HEADER[1:]]))

# 8: a report does not explain its files. The playback of GOOD is the capture's first 128 samples, each of two bytes.
CHECK = ['check', 's', 'c', 'r', 'p']
HEARD = bytes(range(256))
STRAIGHT = {'r': PLAYED, 'p': wave(data=HEARD)}


def wrong_case(name, part, told, files, words=CHECK):
    case(name, words, 8, f'check wrong {part}\n'.encode(), told + '\n', files={**STRAIGHT, **files})


# A report with other lines: the number of the line that is wrong, what is told of it, and its text.
def report_case(name, part, line, told, lines, files=None):
    text = ''.join(it + '\n' for it in lines).encode()
    below = f'\n    {lines[line - 1]}' if line else ''
    place = f'r:{line}' if line else 'r'
    wrong_case(name, part, f'jackd: {place}: {told}{below}', {**(files or {}), 'r': text})


def changed(data, place, *values):
    return data[:place] + bytes(values) + data[place + len(values):]


def feeds(cycle, port, sources):
    return f'\njackd: in cycle {cycle} {port} is fed by {sources}; jackd graph s r {cycle} shows all'


case('a report that explains its files', CHECK, 0, b'check ok\n', '', files=STRAIGHT)
# Sample 65 is 0x8382, which is -31870 of 16 bits; with 0 as its first byte it is -32000. It is frame 1 of cycle 2.
wrong_case('a sample changed', 'playback 0 174',
    'jackd: p: byte 174: cycle 2, frame 1 (frame 65 of the file, second 0.001): -31870 is expected, -32000 stands there'
    + feeds(2, 'system:playback_1', 'system:capture_1'), {'p': changed(wave(data=HEARD), 174, 0)})
# Of two channels the left one is silent, and the right one has the capture: frame 3 of it is 0x0706.
stereo = wave(form(channels=2), b''.join(bytes(2) + HEARD[k:k + 2] for k in range(0, 256, 2)))
two = {'s': text('do connect system:capture_1 system:playback_2', 'run 2', header=[*HEADER[:4], 'playback 2 16', HEADER[5]])}
wrong_case('a sample of the right channel', 'playback 0 58',
    'jackd: p: byte 58: cycle 1, frame 3 (frame 3 of the file, second 0.000), right channel: 1798 is expected, -1 stands there'
    + feeds(1, 'system:playback_2', 'system:capture_1'), {**two, 'p': changed(stereo, 58, 255, 255)})
wrong_case('a sample of the left channel', 'playback 0 44',
    'jackd: p: byte 44: cycle 1, frame 0 (frame 0 of the file, second 0.000), left channel: 0 is expected, 1 stands there'
    + feeds(1, 'system:playback_1', 'nothing'), {**two, 'p': changed(stereo, 44, 1)})
wrong_case('a playback that ends early', 'playback 0 124', 'jackd: p: it ends behind 40 of 128 frames', {'p': wave(data=HEARD)[:124]})
wrong_case('a playback cut in its header', 'playback 0 20', 'jackd: p: the file ends after 20 bytes, within its header',
    {'p': wave(data=HEARD)[:20]})
wrong_case('an empty playback', 'playback 0 0', 'jackd: p: the file is empty', {'p': b''})
wrong_case('a playback that goes on', 'playback 0 300', 'jackd: p: it goes on behind the 128 frames that are expected',
    {'p': wave(data=HEARD) + bytes(2)})
# 48,000 is 0xbb80, and 44,100 0xac44.
wrong_case('a playback of another rate', 'playback 0 24',
    'jackd: p: byte 24, the rate in its header: 128 is expected, 68 stands there; it has rate 44100, where the script has 48000',
    {'p': wave(form(rate=44100), HEARD)})
# 36 bytes stand behind the size in the header, and 256 bytes of samples: 0x124, where 100 frames of 2 bytes have 0xec.
wrong_case('a playback of another session', 'playback 0 4',
    'jackd: p: byte 4, the size of the file in its header: 36 is expected, 236 stands there; it has 100 frames, where the script has 128',
    {'p': wave(data=HEARD[:200])})
eighth = {'s': text(*OPENED, 'run 2', header=[*HEADER, 'recorder 1 8']), 'r': report(TAPED, stopped(2, 4), ['recorder 0 2 0'])}
wrong_case('two files exchanged', 'record 0 4',
    'jackd: t: byte 4, the size of the file in its header: 164 is expected, 36 stands there; it has 16 bits a sample, where the script has 8\n'
    'jackd: p has the header that t should have; are the two exchanged?',
    {**eighth, 'p': wave(form(bits=8), bytes(128)), 't': wave(data=bytes(256))}, [*CHECK, '--record', 't'])
# The record of 16 bits is the capture, and the playback is silent. The last byte of frame 1 is changed.
sixteenth = {'s': text(*OPENED, 'run 2', header=[*HEADER, 'recorder 1 16']), 'r': report(TAPED, stopped(2, 4), ['recorder 0 2 0']),
    'p': wave(data=bytes(256))}
wrong_case('a sample of a record', 'record 0 47',
    'jackd: t: byte 47: cycle 1, frame 1 (frame 1 of the file, second 0.000): 770 is expected, 1026 stands there' + feeds(1, 'tape:in', 'system:capture_1'),
    {**sixteenth, 't': changed(wave(data=HEARD), 47, 4)}, [*CHECK, '--record', 't'])
case('a record that is explained', [*CHECK, '--record', 't'], 0, b'check ok\n', '', files={**sixteenth, 't': wave(data=HEARD)})

# Lines of a report.
CYCLES = stopped(2, 1)
wrong_case('a report that breaks off', 'report 5', 'jackd: r:5: the report breaks off before its line "end"', {'r': PLAYED[:-4]})
wrong_case('a report whose last line is cut', 'report 5', 'jackd: r:5: the report breaks off before its line "end"\n    en', {'r': PLAYED[:-2]})
wrong_case('an empty report', 'report 1', 'jackd: r:1: a report begins with the line "report 1"', {'r': b''})
wrong_case('a WAVE file as the report', 'report 1', 'jackd: r: a WAVE file, and no report', {'r': wave()})
report_case('a script as the report', 'report 1', 1, 'a report begins with the line "report 1"', ['jackd 1', 'rate 48000'])
report_case('a cycle too few', 'report 4', 4, "no line of this script's report, in this place", ['report 1', 'call 0 1 ok 1', CYCLES[0], 'end'])
report_case('a line behind the end', 'report 6', 6, "no line of this script's report, in this place",
    ['report 1', 'call 0 1 ok 1', *CYCLES, 'end', 'end'])
report_case('another reply', 'call 1', 2, 'call 1: "ok 1" is expected', ['report 1', 'call 0 1 refused 16 Exists', *stopped(2, 0), 'end'])
report_case("another script's call", 'call 1', 2, "call 1: the script's next call does not stand here; is it another script's report?",
    ['report 1', 'call 1 1 ok 1', *CYCLES, 'end'])
report_case('a call missing', 'call 1', 2, "call 1: the script's next call does not stand here; is it another script's report?",
    ['report 1', *stopped(2, 0), 'end'])
report_case('a number that falls', 'cycle 2', 4, 'cycle 2: its graph has at least change 1, and 0 stands there',
    ['report 1', 'call 0 1 ok 1', CYCLES[0], 'cycle 2 0 stopped 0 -', 'end'])
report_case('a number past all calls', 'cycle 2', 4, 'cycle 2: its graph has at most change 1, and 9 stands there',
    ['report 1', 'call 0 1 ok 1', CYCLES[0], 'cycle 2 9 stopped 0 -', 'end'])
report_case('another frame', 'cycle 2', 4, 'cycle 2: the frame is 0, and 5 stands there',
    ['report 1', 'call 0 1 ok 1', CYCLES[0], 'cycle 2 1 stopped 5 -', 'end'])
report_case('another state', 'cycle 2', 4, 'cycle 2: the state is stopped, and rolling stands there',
    ['report 1', 'call 0 1 ok 1', CYCLES[0], 'cycle 2 1 rolling 0 -', 'end'])
# A meter that never played has 0, and one that could not be opened has no line.
metered = {'s': text('do open m meter', 'do open m meter', 'run 1'), 'p': wave(data=bytes(128))}
METERS = ['report 1', 'call 0 1 ok 1', 'call 0 2 refused 3 IsOpen', 'cycle 1 1 stopped 0 -']
report_case('another peak', 'meter 1', 5, 'meter 1: the peak is 0, and 7 stands there', [*METERS, 'meter m 7', 'end'], metered)
report_case('a meter missing', 'meter 1', 0, 'meter 1: its line is missing', [*METERS, 'end'], metered)
report_case('a meter too many', 'meter 2', 6, 'meter 2: nothing in the session asks for this line', [*METERS, 'meter m 0', 'meter m 0', 'end'], metered)
# A log that hears a list from its start on: its first frame is played in cycle 2.
logged = {'s': text('do open a midiplay 0', 'do register a:o out midi', 'do activate a', 'do open k midilog', 'do register k:i in midi', 'do activate k',
    'do connect a:o k:i', 'do start', 'run 3', header=['jackd 3', *HEADER[1:], 'event 0 1 903c40', 'event 0 70 803c00']), 'p': wave(data=bytes(384))}
LOGGED = ['report 1', *(f'call 0 {call} ok {call}' for call in range(1, 9)), 'cycle 1 8 starting 0 -', 'cycle 2 8 rolling 0 -', 'cycle 3 8 rolling 64 -']
ON, OFF = 'midi k 2 1 903c40', 'midi k 3 6 803c00'
case('a log that is explained', CHECK, 0, b'check ok\n', '', files={**logged, 'r': ''.join(it + '\n' for it in [*LOGGED, ON, OFF, 'end']).encode()})
report_case('an event in another cycle', 'midi 1', 13, 'midi 1: the cycle is 2, and 1 stands there', [*LOGGED, 'midi k 1 1 903c40', OFF, 'end'], logged)
report_case('an event at another offset', 'midi 2', 14, 'midi 2: the offset is 6, and 7 stands there', [*LOGGED, ON, 'midi k 3 7 803c00', 'end'], logged)
report_case('an event of other bytes', 'midi 1', 13, 'midi 1: an event of other bytes is expected', [*LOGGED, 'midi k 2 1 903c41', OFF, 'end'], logged)
report_case('an event of another log', 'midi 1', 13, 'midi 1: its line is missing', [*LOGGED, 'midi a 2 1 903c40', OFF, 'end'], logged)
report_case('an event missing', 'midi 2', 0, 'midi 2: its line is missing', [*LOGGED, ON, 'end'], logged)
report_case('an event too many', 'midi 3', 15, 'midi 3: nothing in the session asks for this line', [*LOGGED, ON, OFF, OFF, 'end'], logged)


# A ring of two places that nothing leaves, of one recorder, and cycles that find it full from the third on.
def overrun_case(name, part, line, told, rest):
    lines = ['report 1', *TAPED, *stopped(4, 4), *rest, 'end']
    told = f'jackd: r:{line}: {told}\n    {lines[line - 1]}'
    wrong_case(name, part, told, {'s': text(*OPENED, 'run 4', header=[*HEADER, 'ring 2', 'drain 0', 'recorder 1 16']),
        'r': ''.join(it + '\n' for it in lines).encode(), 'p': wave(data=bytes(512)), 't': wave(data=HEARD)}, [*CHECK, '--record', 't'])


overrun_case('another number of blocks', 'recorder 1', 10, 'recorder 1: the number of blocks is 2, and 3 stands there',
    ['recorder 0 3 2', 'overrun 0 3 2 0', 'overrun 0 4 2 0'])
overrun_case('another number of blocks sent', 'overrun 2', 12, 'overrun 2: the number of blocks sent is 2, and 3 stands there',
    ['recorder 0 2 2', 'overrun 0 3 2 0', 'overrun 0 4 3 0'])

# A check ends as a play does where what is given is wrong.
case('a check of no report', ['check', 's', 'c', 'nor', 'p'], 3, b'fault 3 read\n', 'jackd: nor: No such file or directory\n', files=STRAIGHT)
case('a check of no playback file', ['check', 's', 'c', 'r', 'nop'], 3, b'fault 3 read\n', 'jackd: nop: No such file or directory\n', files=STRAIGHT)
for words in CHECK, [*CHECK, '--disk', 'd', '--disk', 'e']:
    case('a check of a script with disks', words, 5, b'fault 5 script 1 Choice\n', 'jackd: s:1: a session with disk files is played, and not checked yet\n    jackd 3\n',
        files={**STRAIGHT, 's': TRACKS, 'd': wave(), 'e': wave(form(channels=2))})
case('a check of a misspelt script', CHECK, 5, b'fault 5 script 7 Unknown\n', 'jackd: s:7: no command "strat"; is "start" meant?\n    do strat\n',
    files={**STRAIGHT, 's': text('do strat', 'run 2')})
case('a check of two channels', CHECK, 7, b'fault 7 differs Channels 1 2\n', 'jackd: the script has capture 1, c has 2 channels: sox c -c 1 new.wav\n',
    files={**STRAIGHT, 'c': wave(form(channels=2))})
case('a check of a text as the capture', CHECK, 4, b'fault 4 wave NotRiff\n', 'jackd: c: no RIFF WAVE file (begins "hell")\n',
    files={**STRAIGHT, 'c': b'hello, this is no sound'})
if os.path.exists('/dev/full'):
    with open('/dev/full', 'wb') as full:
        case('a check and a full standard output', CHECK, 6, None, 'jackd: standard output: No space left on device; the verdict is cut\n',
            files=STRAIGHT, stdout=full)

# The help and the version.
version = subprocess.run([program, '--version'], stdout=subprocess.PIPE).stdout
if not re.fullmatch(rb'jackd \d+\.\d+\.\d+\n', version):
    faults.append(f'the version is {version!r}')
case('the version', ['--version'], 0, version, '')
case('the version, short', ['-V'], 0, version, '')
help_text = subprocess.run([program, '--help'], stdout=subprocess.PIPE).stdout
if b'jackd play SCRIPT CAPTURE PLAYBACK' not in help_text or b'docs/FORMATS.md' not in help_text:
    faults.append('the help does not name play and the formats')
for words in [['-h'], ['help'], ['play', '--help'], ['play', '-h'], ['check', '--help']]:
    case('the help, as ' + ' '.join(words), words, 0, help_text, '')

for fault in faults[:30]:
    print('check-reasons:', fault)
print(f'check-reasons: {tried} mistakes' + (f', {len(faults)} faults' if faults else ', each with its reason, and no file lost'))
sys.exit(bool(faults))
PY
