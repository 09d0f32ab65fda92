#!/bin/bash
# The Python module (hosts/python) over shared libraries of the proved archives.
set -euo pipefail
trap 'echo "$0: line $LINENO ended with $?" >&2' ERR
cd "$(dirname "$0")/../.."
tools/archives ascending_replay host jobneeds jobtext reason replay summary
PYTHONDONTWRITEBYTECODE=1 python3 tests/python/test.py 2>target/python.log || { cat target/python.log >&2; exit 1; }
echo "python: $(sed -n 's/^Ran \([0-9]* tests\).*/\1/p' target/python.log) passed"
