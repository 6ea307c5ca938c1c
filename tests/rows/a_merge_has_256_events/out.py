print('report 1')
for call in range(1, 20):
    print(f'call 0 {call} ok {call}')
print('cycle 1 19 starting 0 -\ncycle 2 19 rolling 0 -')
for log, events, count, frame in (('k', 0, 256, 0), ('l', 2, 200, 0), ('l', 1, 56, 1)):
    for n in range(count):
        print(f'midi {log} 2 {frame} 9{events}{n // 128:02x}{n % 128:02x}')
print('end')
