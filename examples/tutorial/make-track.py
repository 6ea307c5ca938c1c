import wave

with wave.open('track.wav', 'wb') as file:
    file.setparams((1, 2, 48000, 0, 'NONE', ''))
    file.writeframes(b''.join(n.to_bytes(2, 'little') for n in range(1, 11)))
