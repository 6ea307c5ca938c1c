# 16 calls for the gain and the recorder, 34 for each of the 14 clients, and the start.
calls = 16 + 34 * 14 + 1
print('report 1')
for n in range(calls):
    print(f'call 0 {n + 1} ok {n + 1}')
print(f'cycle 1 {calls} starting 0 -')
for k in range(3):
    print(f'cycle {k + 2} {calls} rolling {4096 * k} -')
print('recorder 0 4 0\nend')
