#!/bin/sh
# run.sh [FOLDER]: the benchmark beside the published Rust. FOLDER holds the published files of miden-core 0.36.3 (the one with
# src/mast/serialization/layout.rs); else VEKALUMIST_PUBLISHED names it. VEKALUMIST_ARCHIVE names the folder of the archive; else
# tools/archive.sh makes it. Prints the table; stores target/bench/results.csv and bench/plot.svg.
set -eu
here=$(cd "$(dirname "$0")" && pwd)
top=$(cd "$here/.." && pwd)
work=$top/target/bench
mkdir -p "$work"
VEKALUMIST_PUBLISHED=${1:-${VEKALUMIST_PUBLISHED:-}}
[ -n "$VEKALUMIST_PUBLISHED" ] || { echo "usage: run.sh FOLDER of the published files" >&2; exit 2; }
VEKALUMIST_PUBLISHED=$(cd "$VEKALUMIST_PUBLISHED" && pwd)
if [ -z "${VEKALUMIST_ARCHIVE:-}" ]; then
    VEKALUMIST_ARCHIVE=$work/archive
    sh "$top/tools/archive.sh" "$top" "$VEKALUMIST_ARCHIVE"
fi
export VEKALUMIST_PUBLISHED VEKALUMIST_ARCHIVE
CARGO_TARGET_DIR=${CARGO_TARGET_DIR:-$top/target/cargo}
export CARGO_TARGET_DIR
cargo build --manifest-path "$here/Cargo.toml" --release --offline --quiet
"$CARGO_TARGET_DIR/release/bench" "$work/results.csv"
python3 "$here/plot.py" "$work/results.csv" "$here/plot.svg"
