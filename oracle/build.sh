#!/bin/sh
# Builds the oracle, the reference and the tools into target/release.
# MINIRUST_SRC: the folder that holds crates/minirust-rs/src (default: ../shared/docs/src beside the project).
set -e
cd "$(dirname "$0")"
export RUSTC_BOOTSTRAP=1
exec cargo build --release --offline --quiet -j "${JOBS:-1}" "$@"
