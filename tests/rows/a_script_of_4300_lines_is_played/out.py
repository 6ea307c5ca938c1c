print('report 1')
for call in range(1, 4097):
    print(f'call 0 {call} ok {call}')
for cycle in range(1, 205):
    print(f'cycle {cycle} 4096 stopped 0 -')
print('end')
