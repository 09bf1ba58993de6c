#!/bin/sh
# Makes the files of tests/vectors again, from the fixed seeds.
set -eu
cd "$(dirname "$0")"
python3 make_vectors.py --seed=1 --count=4000 > ../vectors/correct.txt
python3 make_vectors.py --frames --seed=1 --count=500 > ../vectors/frames.txt
python3 make_scripts.py --seed=1 --count=500 > ../vectors/scripts.txt
python3 make_scripts.py --long > ../vectors/scripts_long.txt
python3 make_large.py > ../vectors/large.txt
python3 to_gate.py
