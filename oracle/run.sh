#!/usr/bin/env bash
# Holds the built library against the Rust original: oracle/run.sh PATH COMMAND..
#   PATH        the original's src/ folder, of which four files are taken unchanged
#   COMMAND..   one of the commands in oracle/src/main.rs
set -euo pipefail
ORIGINAL_SRC=$(cd "${1:?PATH is missing: the src/ folder of the Rust original}" && pwd)
export ORIGINAL_SRC
cd "$(dirname "$0")/.."
tools/staticlib serduzhap_c > /dev/null
exec cargo run --frozen --release --quiet --package oracle -- "${@:2}"
