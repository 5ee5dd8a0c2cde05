#!/usr/bin/env bash
# Measures calls through the library for C, in one batch and one by one on a machine that is kept, beside the plain machine of
# bench/baseline.rs, called as a function: nanoseconds a call, medians of five runs in turn, the making of the machine included; the replies
# have to be the same.
#   hit      a load of a page that the TLB has
#   fault    the first load of each of 65,000 pages
#   change   a page mapped, and unmapped, in turn
# Then the calls by which a machine decides for a real MMU (bench/touches.rs lists them), of a machine that is kept, beside that plain machine.
# Then hits of a machine that threads share, by one thread and by four together, beside a pthread mutex around a machine that is kept, and in lists of 64; of what
# one thread does, the medians of five runs again. Where bench_live is built, hits in the space of many locks come last (bench/threads.sh hits).
# Usage: bench/library.sh; RADIXVM_LIBRARY names the folder of a libradixvm.a that was built already, LIVE_PROGRAM a program bench_live.
set -eu
cd "$(dirname "$0")/.."
work=$(mktemp -d)
trap 'rm -rf "$work"' EXIT
library=${RADIXVM_LIBRARY:-crates/radixvm_c/out}
[ -n "${RADIXVM_LIBRARY:-}" ] || ./radixvm --build-library
rustc --edition 2021 -C opt-level=3 -L "native=$library" -l static=radixvm -o "$work/library" bench/library.rs
"$work/library"
rustc --edition 2021 -C opt-level=3 -L "native=$library" -l static=radixvm -o "$work/touches" bench/touches.rs
"$work/touches"
rustc --edition 2021 -C opt-level=3 -L "native=$library" -l static=radixvm -o "$work/shared" bench/shared.rs
"$work/shared"
live=${LIVE_PROGRAM:-crates/bench_live/out/bench_live}
if [ -x "$live" ]; then
    LIVE_PROGRAM=$live bench/threads.sh hits | tail -n 1
else
    echo "the space of many locks: bench_live isn't built" >&2
fi
