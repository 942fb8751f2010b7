#!/bin/bash
# The command. Ctrl-C, unless it was ignored before: Python ignores it too until it can end without a traceback.
if [ -z "$(trap -p INT)" ]; then
    trap '' INT
    export WALZHIK_INTERRUPT=yes
fi
exec /usr/bin/python3 -P -m walzhik "$@"
