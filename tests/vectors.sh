#!/bin/sh
# The program `vectors` is held to crates/vectors/stdout; this holds that file to what tests/vectors.py works out.
set -eu
cd "$(dirname "$0")/.."
python3 tests/vectors.py | diff - crates/vectors/stdout
