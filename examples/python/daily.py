"""The daily job from Python: a Tucson file is read, a curve fitted to one series, and each ring divided by it. Prints the template's
breakpoints, how close the fit is, and the first years with their indices; an absent ring has -1.

    PYTHONPATH=python/src /usr/bin/python3 examples/python/daily.py < examples/tucson/oak.rwl
"""

import sys

from walzhik import tucson
from walzhik.fit import fit, template

SHOWN = 5

series = tucson.read(sys.stdin.buffer.read())
oak = next(each for each in series if each.name == "ROOF04E")
fitted = fit(template(len(oak), oak.first), oak.widths, oak.first)
print("breakpoints:", fitted.curve.space.breaks.tolist())
print(f"share of the variance explained: {fitted.closeness().share_explained:.3f}")
for year, index in list(enumerate(fitted.curve.indices(oak.widths, oak.first).tolist(), start=oak.first))[:SHOWN]:
    print(year, index)

# The same curve in SciPy, for what the engine does not give: its slope at a ring, in thousandths of a millimetre a ring.
print(f"slope at {oak.first + SHOWN}: {float(fitted.curve.to_scipy().derivative()(oak.first + SHOWN)):.1f}")
