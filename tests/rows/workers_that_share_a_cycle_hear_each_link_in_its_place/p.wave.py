# Digit n of a number, from the lowest, is what tone n became: the number of the client in the first layer that made it louder.
# Client c has the digit c + 1 in channel n behind the first layer, and so behind the fourth, and in channel n + 1 behind the
# fifth. So of channel c of client c the first cycle hears digit c - 1, that is 1 as digit 5, 2 as 0, 3 as 1, up to 6 as 4. In the
# second cycle clients and channels stay turned over: of channel c of client c it hears digit c, made by client c - 1, that is 6
# as digit 0, 1 as 1, up to 5 as 5. The tones turn at frames 3,000 and 6,000 of 8,192.
print('8000 1 32 165432*3000 -165432*1096 -543216*1904 543216*2192')
