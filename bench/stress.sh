#!/usr/bin/env bash
# Runs the threads of `test_live` with more scripts than the gate does, on a copy of the repository: two and four threads of changes, and up to 64 of
# loads, stores, fetches and changes, also with one frame and with full windows; each run is certified. Nothing is proved. It takes an hour or more.
# Usage: bench/stress.sh [SCRIPTS [TEST]], 200 of each space and all threads where left out.
set -eu
cd "$(dirname "$0")/.."
scripts=${1:-200}
test=${2:-thread_tests::}
work=$(mktemp -d)
trap 'rm -rf "$work"' EXIT
git clone -q . "$work/copy"
cd "$work/copy/crates/test_live"
sed -i "s/^const SEEDS: u64 = .*/const SEEDS: u64 = $scripts;/" src/thread_tests.rt
rt try --test --seconds 20000 -- "$test"
