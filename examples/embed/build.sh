#!/bin/sh
# Builds the programs beside this into a folder, each where its compiler is there: two_phones_c and two_phones_rust. The
# library is built first where it isn't there.
set -eu
here=$(cd "$(dirname "$0")" && pwd)
into=${1:?name a folder to build into}
crate=$here/../../crates/peer_c
library=$crate/out/libpeer_c.a
heap=$(dirname "$(readlink -f "$(command -v rt)")")/../c/liblibc_c.a

[ -f "$library" ] || (cd "$crate" && rt lib) >&2
if command -v cc >/dev/null; then
    cc -std=c11 -Wall -Wextra -Werror -O2 -o "$into/two_phones_c" "$here/two_phones.c" "$library" "$heap"
fi
if command -v rustc >/dev/null; then
    rustc --edition 2021 -D warnings -O -o "$into/two_phones_rust" "$here/two_phones.rs" \
        -C "link-arg=$library" -C "link-arg=$heap"
fi
