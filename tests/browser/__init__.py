"""What the test of the screen needs of a browser: the page as a hand and an eye know it, and the manual's pictures of
it.
"""
