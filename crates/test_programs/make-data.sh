#!/bin/sh
# Makes data/ again: inputs of the two programs, what the second implementation writes for them, and the list of the cases, data/cases.
# The files come out the same each time.
set -eu
cd "$(dirname "$0")"
rm -rf data
cargo run --offline --quiet --release --manifest-path ../../reference/Cargo.toml -- make-program-cases data
