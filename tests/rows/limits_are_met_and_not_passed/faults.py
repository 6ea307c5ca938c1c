# The script has six lines and 63 bytes. Behind lines that keep to the limits the first fault is the line `x`.
LIMITS = [
    ('do stop', 4096), ('do open a mix', 256), ('run 1', 256), ('period 8', 256), ('recorder 1 8', 4), ('disk 1', 4), ('event 0 1 80', 4096),
]
for line, most in LIMITS:
    for count, cause in ((most, 'Unknown'), (most + 1, 'TooMany')):
        print(f'5 fault 5 script {most + 7} {cause}: ' + f'{line}\\n' * count + 'x')
print('5 fault 5 script 9 Unknown: run 999999\\nrun 1\\nx')
print('5 fault 5 script 8 TooMany: run 1000000\\nrun 1\\nx')
# 122,070 cycles of 4,096 frames of one channel are 1,999,994,880 bytes of samples, and of eight channels 15,258 are 1,999,896,576
print('5 fault 5 script 9 Unknown: period 4096\\nrun 122070\\nx')
print('5 fault 5 script 8 TooLong: period 4096\\nrun 122071\\nx')
print('5 fault 5 script 10 Unknown: recorder 8 8\\nperiod 4096\\nrun 15258\\nx')
print('5 fault 5 script 9 TooLong: recorder 8 8\\nperiod 4096\\nrun 15259\\nx')
for count, place, cause in ((2**20 - 64, 2**20 - 57, 'Unknown'), (2**20 - 63, 0, 'TooLong')):
    print(f'5 fault 5 script {place} {cause}: ' + '\\n' * count + 'x')
