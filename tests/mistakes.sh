#!/usr/bin/env bash
# The comparisons themselves, without the library: a right stand-in for it is let pass, and each with a mistake is seen.
exec "$(dirname "$0")/compare.sh" mistakes
