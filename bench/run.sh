#!/usr/bin/env bash
# Times the reader and `check` beside Rust: bench/run.sh PATH [NAME]..
#   PATH    the src/ folder of the Rust original
#   NAME    one of the files in bench/benches/; all of them if none is given
# With SERDUZHAP_LIB set, the libraries in that folder are timed, and none is built.
set -euo pipefail
ORIGINAL_SRC=$(cd "${1:?PATH is missing: the src/ folder of the Rust original}" && pwd)
export ORIGINAL_SRC
names=("${@:2}")
if [ ${#names[@]} -eq 0 ]; then
    names=(read check modules growth worst)
fi
cd "$(dirname "$0")/.."
if [ -z "${SERDUZHAP_LIB:-}" ]; then
    tools/staticlib serduzhap_c bench_reader
fi
if python3 -c 'import sys; sys.exit(sys.version_info < (3, 11))' 2> /dev/null; then
    python3 bench/modules.py target/bench_modules
else
    echo 'no Python 3.11 or later: no tree texts are made of its modules'
fi
for name in "${names[@]}"; do
    cargo bench --frozen --quiet --package bench --bench "$name"
done
