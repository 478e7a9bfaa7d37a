#!/bin/sh
# Compares the picture in docs/ARCHITECTURE.md with crates.txt; skipped where python3 isn't found.
cd "$(dirname "$0")/.." || exit 1
command -v python3 >/dev/null 2>&1 || { echo "compare_picture: skipped, no python3"; exit 0; }
python3 .ci/picture.py
