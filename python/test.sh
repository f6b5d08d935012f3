#!/usr/bin/env bash
# Runs the tests of the Python package, and mypy over it if mypy is installed. Fails if Python 3.9 or later is not installed, or if
# the shared object is not built.
set -eu
cd "$(dirname "$0")"
if ! python3 -c 'import sys; sys.exit(sys.version_info < (3, 9))' 2>/dev/null; then
    echo 'python/test.sh: Python 3.9 or later is not installed' >&2
    exit 1
fi
if [ ! -f biblatex/libbiblatex.so ]; then
    echo 'python/test.sh: the shared object is not built: python/build.sh builds it' >&2
    exit 1
fi
status=0
python3 -W error -m unittest discover -s tests || status=1
if command -v mypy >/dev/null; then
    MYPYPATH=.:tests mypy biblatex tests examples/authors.py || status=1
else
    echo 'python/test.sh: 1 skipped: mypy is not installed'
fi
exit "$status"
