"""The curves of case W1 from Python: prints a position with its two values a line. What is refused is an exception with number, place
and words.
"""

import walzhik

curve = walzhik.Curve(walzhik.Space([0, 1, 3], [2, 2], [1]), [0, 100, 0, 0])
positions = [256, 512]
for position, (earlywood, latewood) in zip(positions, curve.values(positions)):
    print(f"{position},{earlywood}:{latewood}")
