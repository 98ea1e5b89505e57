#!/usr/bin/env bash
# The stream, from outside: the library for C against the second program, in chunks of any size.
exec "$(dirname "$0")/compare.sh" stream
