#!/bin/sh
# Runs the program nomos that is installed with this, with the words given; `nomos --version` says which one that is.
home=$(dirname -- "$(readlink -f -- "$0")")/../lib/nomos
if [ "$#:$1" = 1:--version ]; then
    echo "nomos $(cat "$home/version")"
    exit
fi
exec "$home/nomos" "$@"
