"""The cuts of a row whose capture or disk file has a plain header of 44 bytes, as scripts/check-rows.sh takes them, by docs/FORMATS.md."""


def cuts(channels, bits, samples, period=64, rate=48000, blocks=False):
    """Prints what a file's fronts are: a fault within the header, and then as many whole frames as there are, heard in 32 bits in one
    period. Of a disk file its blocks stand before them."""
    frame, count = channels * bits // 8, len(samples) // channels
    print('0 11 4 fault 4 wave Ends {}')
    print('12 19 4 fault 4 wave NoFormat')
    print('20 35 4 fault 4 wave Ends {}')
    print('36 43 4 fault 4 wave NoData')
    for frames in range(count + 1):
        first = 44 + frame * frames
        last = first + frame - 1 if frames < count else first
        heard = [sample * 2 ** (32 - bits) for sample in samples[:channels * frames]]
        told = [min(frames, 1)] if blocks else []
        print(first, last, 0, *told, rate, channels, 32, *heard, f'0*{channels * (period - frames)}')
