print('report 1')
for call in range(1, 65):
    print(f'call 0 {call} ok {call}')
print("""call 0 65 refused 8 ClientsFull
call 0 66 ok 65
call 0 67 ok 66
call 0 68 ok 67
call 0 69 refused 21 InUse
call 0 70 ok 68
call 0 71 ok 69
call 0 72 ok 70
call 0 73 refused 8 ClientsFull
recorder 0 0 0
end""")
