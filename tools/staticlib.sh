#!/usr/bin/env bash
# Proves and builds the static library, and puts it where the Rust packages and the C examples look for it:
# target/staticlib/libvoltunnis.a. Where the library does not prove, this fails, and what stood there before stays.
set -euo pipefail
cd "$(dirname "$0")/.."

(cd crates/voltunnis && rt lib)
mkdir -p target/staticlib
# In one step, so that nothing reads half of it.
cp crates/voltunnis/out/libvoltunnis.a target/staticlib/libvoltunnis.a.new
mv target/staticlib/libvoltunnis.a.new target/staticlib/libvoltunnis.a
