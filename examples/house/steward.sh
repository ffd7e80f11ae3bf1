#!/usr/bin/env bash
# After a build of the house: its tree is converted and its record checked; anything but `sound` fails the build. With losses and rays
# NAME.report then says what each ray loses and what each pane takes.
# usage: examples/house/steward.sh PANES NAME [LOSSES RAYS]     (FUNNELCRESS names the command where it is not on the PATH)
set -eu
if [ $# -ne 2 ] && [ $# -ne 4 ]; then
    echo "usage: examples/house/steward.sh PANES NAME [LOSSES RAYS]" >&2
    exit 2
fi
f=${FUNNELCRESS:-funnelcress}
"$f" tree "$1" -o "$2.tree" && "$f" convert "$2.tree" -o "$2" && "$f" check "$2.record" || exit 1
if [ $# -eq 4 ]; then
    "$f" report "$2.record" "$2.list" "$3" "$4" > "$2.report"
fi
