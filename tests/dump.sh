#!/usr/bin/env bash
# The dump and its reader, from outside: the library for C against the second program, on made and damaged logs and texts.
exec "$(dirname "$0")/compare.sh" dump
