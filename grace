#!/usr/bin/env bash
# Runs the program with these arguments. `build` says which program that is.
source "$(dirname "$(realpath "${BASH_SOURCE[0]}")")/build" || exit
make_ready
exec "$program" "$@"
