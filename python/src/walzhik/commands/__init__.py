"""The sub-commands, a module each: it holds one click command under the name ``command``. A module whose name begins
with an underscore is no command.
"""
