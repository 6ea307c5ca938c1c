import wave

with wave.open('capture.wav', 'wb') as file:
    file.setparams((1, 2, 48000, 0, 'NONE', ''))  # one channel, two bytes a sample, 48,000 frames a second
    file.writeframes(b''.join((100 * n).to_bytes(2, 'little') for n in range(1, 21)))
