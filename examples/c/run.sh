#!/usr/bin/env bash
# Builds the library for C, links the example program with gcc, and lists the example sheet.
set -eu
cd "$(dirname "$0")/../.."
(cd crates/set_chooser_c && rt lib)
mkdir -p target/c
cp crates/set_chooser_c/out/libset_chooser_c.a target/c/libset_chooser.a
gcc -O2 -Wall -Wextra -Iinclude -o target/c/list examples/c/list.c target/c/libset_chooser.a
target/c/list < crates/setlist/stdin
