# List 0 has 300 events on one frame, lists 1 and 2 have 200 each, of which those of list 2 are earlier.
print('jackd 3\nrate 8000\nperiod 4\ncapture 1\nplayback 1 16\nmode serial')
for events, count, frame in ((0, 300, 0), (1, 200, 1), (2, 200, 0)):
    for n in range(count):
        print(f'event {events} {frame} 9{events}{n // 128:02x}{n % 128:02x}')
for name, kind in (('p', 'midiplay 0'), ('q', 'midiplay 1'), ('r', 'midiplay 2'), ('k', 'midilog'), ('l', 'midilog')):
    print(f'do open {name} {kind}\ndo register {name}:it {"in" if kind == "midilog" else "out"} midi\ndo activate {name}')
print('do connect p:it k:it\ndo connect q:it l:it\ndo connect r:it l:it\ndo start\nrun 2')
