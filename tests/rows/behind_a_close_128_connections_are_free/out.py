# five clients of 18 calls, one of 3, and 512 connections
before = 5 * 18 + 3 + 512
print('report 1')
for call in range(1, before + 1):
    print(f'call 0 {call} ok {call}')
print(f'call 0 {before + 1} refused 17 Full')
for call in range(before + 2, before + 2 + 1 + 128):
    print(f'call 0 {call} ok {call - 1}')
print(f'call 0 {before + 3 + 128} refused 17 Full')
print('end')
