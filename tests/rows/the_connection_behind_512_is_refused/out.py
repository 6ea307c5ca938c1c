print('report 1')
for call in range(1, 603):
    print(f'call 0 {call} ok {call}')
print('call 0 603 refused 17 Full')
print('end')
