# Cycles 2 to 41 are forty with a hundred events, and 96 more are 4,096; cycles 43 and 44 have no room.
print('report 1')
for call in range(1, 15):
    print(f'call 0 {call} ok {call}')
print('cycle 1 14 starting 0 -')
for cycle in range(2, 45):
    print(f'cycle {cycle} 14 rolling {4 * (cycle - 2)} -')
for cycle in range(2, 43):
    for n in range(96 if cycle == 42 else 100):
        print(f'midi l {cycle} {n // 25} f0{n:02x}')
print('end')
