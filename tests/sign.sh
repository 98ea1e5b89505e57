#!/usr/bin/env bash
# The sign, from outside: the library for C against the second program.
exec "$(dirname "$0")/compare.sh" sign
