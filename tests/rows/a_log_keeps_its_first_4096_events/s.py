# A hundred events in the first rolling cycle, 25 on each of its frames, which a loop brings again in each cycle after it.
print('jackd 3\nrate 8000\nperiod 4\ncapture 1\nplayback 1 16\nmode serial')
for n in range(100):
    print(f'event 0 {n // 25} f0{n:02x}')
print('do open p midiplay 0\ndo register p:out out midi\ndo activate p')
print('do open t midithru\ndo register t:in in midi\ndo register t:out out midi\ndo activate t')
print('do open l midilog\ndo register l:in in midi\ndo activate l')
print('do connect p:out t:in\ndo connect t:out t:in\ndo connect t:out l:in\ndo start\nrun 44')
