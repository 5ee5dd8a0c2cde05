#!/usr/bin/env bash
# Measures the whole program anew (shapes, instructions, growth, and where the time of the slowest goes) and brings the figures into
# docs/SPEED.md and the pictures of docs/. The words of docs/SPEED.md on why have to be read again by hand. It takes about four
# minutes where the program is built, and wants an idle machine. Beside rustc it needs perf, valgrind, python3 and /usr/bin/time. Usage: bench/all.sh
set -eu
cd "$(dirname "$0")/.."
bench/shapes.sh
bench/instructions.sh
bench/growth.sh
bench/profile.sh
bench/report.py
