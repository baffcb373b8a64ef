#!/usr/bin/env bash
# Sees that the definitions stand where docs/TRUST.md says, and rebuilds every proof and test from scratch (rt ci). Then it runs the program that
# this built: on the rows of tables, with streams that are closed or full, with reads, writes and allocations failing, on the examples, as the
# documents say, beside its companions, installed and packed, and at last on generated cases, of which a reference in Python knows the answers. The C
# file of both programs is made again, what is compiled from it runs the tables too, and a fresh clone is used without the toolchain.
# The rules of the build are tried with a stub for the prover, and what stands around the programs by hostile use.
# The last line counts what passed and failed in all.
set -u
unset CDPATH
cd "$(dirname "${BASH_SOURCE[0]}")/.." || exit
# As many checks side by side as there are processors, with one job for each: of several jobs a check takes more processor time
# (docs/BUILDING.md).
export RT_JOBS=${RT_JOBS:-$(nproc)}
# shellcheck source=tests/counting.sh
. tests/counting.sh

count scripts/believed.py
count tests/belief.py
count tests/memory_faults.py
count rt ci
if [ "$failed" -eq 0 ]; then
    count tests/tables.py
    count tests/portable.py
    count tests/library.sh
    count tests/fresh_clone.sh
    count tests/process.sh
    count tests/lint.py
    count tests/verdicts.py
    count tests/verdicts.py --lint
    count tests/guarantees.py
    count tests/in_a_row.py
    count tests/failing_calls.py
    count tests/reads.py
    count tests/allocations.py
    count tests/companions.py
    count tests/values.py
    count tests/cover.py
    count tests/cover_copies.py
    count tests/cover_runs.py
    count tests/possible.py
    count tests/jury.py
    count tests/package.py
    count tests/validators.py
    count tests/planted.py
    count tests/statement.py
    count tests/parts.py
    count tests/mistakes.py
    count tests/editors.py
    count tests/language_server.py
    count tests/build.py
    count tests/hostile.py
    count tests/install.sh
    count tests/examples.py
    count tests/documents.py
    count tests/sentences.py
    count tests/links.py
    count tests/fuzz.py
    count tests/fuzz.py --verdicts
    count tests/fuzz.py --findings
    count tests/fuzz.py --guarantees
    count tests/fuzz.py --impossible --count 200
fi
end_of_counts
