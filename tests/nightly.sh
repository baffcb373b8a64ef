#!/usr/bin/env bash
# What takes too long for the gate, on the programs that were built: rows of tests/tables/nightly/, 100,000 generated cases with a reference and with
# ctd-lint, 5,000 programs in which nothing may happen that ctd-cover calls impossible, 10,000 that it puts together again, what each mechanism of
# ctd-lint buys, the libraries and the page. The last line counts what passed and failed.
set -u
CDPATH='' cd "$(dirname "${BASH_SOURCE[0]}")/.." || exit
# shellcheck source=tests/counting.sh
. tests/counting.sh

count tests/tables.py crates/checktestdata/out/checktestdata tests/tables/nightly
count tests/fuzz.py --count "${COUNT:-100000}" --seed "${SEED:-1}"
count tests/fuzz.py --verdicts --count "${COUNT:-100000}" --seed "${SEED:-1}"
count tests/fuzz.py --findings --count "${COUNT:-100000}" --seed "${SEED:-1}"
count tests/fuzz.py --guarantees --count "${COUNT:-100000}" --seed "${SEED:-1}"
count tests/fuzz.py --impossible --count "${PROGRAMS:-5000}" --seed "${SEED:-1}"
count tests/cover_copies.py crates/checktestdata/out/checktestdata 10000
count tests/precision.py
count make --no-print-directory test-lib
count make --no-print-directory test-page
end_of_counts
