"""A whole data bank at once: the files of a laboratory, each with its indices, its fitted sheets and its lines in one
report. It is tested, not proved; every number in an output is what the same call gives for one file.

One idea a module: `inputs` finds the files, `reading` reads one, `task` works one out, `whole` writes, `records` says
what a file came to and `manifest` keeps that, `local` and `cluster` hold the workers, `progress` tells how far it is,
`report`, `page` and `sketch` make the report, and `run` puts them together.
"""
