"""The screen: one page, served to this machine's browser alone, on which a curve is designed by looking at it. The
server keeps nothing but the files that it was given at its start; every curve that it answers comes from the engine's
proved calls in one request. The server and the page are tested, not proved.
"""
