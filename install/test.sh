#!/usr/bin/env bash
# Makes a release, installs it from its tar, and tries what was installed, without the kit: README's first run in a root of its own, the recorder, the shared library
# by its names, through ctypes, and from C and C++ by pkg-config, man pages, completions, each command and path of the documents (bench/docs.py), and
# bindings/test.sh over the installed files.
# Usage: install/test.sh [SEEDS], over what `./radixvm --build` and `./radixvm --build-library` made, or what RADIXVM_PROGRAM and RADIXVM_ARCHIVE name.
set -euo pipefail
top=$(cd "$(dirname "$0")/.." && pwd)
program=${RADIXVM_PROGRAM:-$top/crates/radixvm/out/radixvm}
archive=${RADIXVM_ARCHIVE:-$top/crates/radixvm_c/out/libradixvm.a}
work=$(mktemp -d)
trap 'rm -rf "$work"' EXIT
fail() {
    echo "install/test.sh: $*" >&2
    exit 1
}

sh "$top/install/release" "$work/release.tar.gz" "$program" "$archive"
mkdir "$work/unpacked"
tar -C "$work/unpacked" -xzf "$work/release.tar.gz"
here=$(echo "$work"/unpacked/*)
prefix=$work/prefix
env -i PATH=/usr/bin:/bin HOME="$work" "$here/install.sh" "$prefix" > "$work/said"
grep -q "^installed under $prefix" "$work/said" || fail "install.sh said: $(cat "$work/said")"
echo "release: $(du -h "$work/release.tar.gz" | cut -f 1), $(find "$prefix" -type f | wc -l) files installed"

# an older C library, and another machine, are told
mkdir "$work/old"
printf '#!/bin/sh\necho glibc 2.17\n' > "$work/old/getconf"
printf '#!/bin/sh\n[ "$1" = -m ] && echo aarch64 || echo Linux\n' > "$work/old/uname"
chmod +x "$work"/old/*
mv "$work/old/uname" "$work/uname"
if env -i PATH="$work/old:/usr/bin:/bin" HOME="$work" "$here/install.sh" "$work/none" 2> "$work/said"; then fail "glibc 2.17 was taken"; fi
grep -q "needs glibc .* or newer, and this is 2.17" "$work/said" || fail "of glibc 2.17 it said: $(cat "$work/said")"
mv "$work/uname" "$work/old/uname"
if env -i PATH="$work/old:/usr/bin:/bin" HOME="$work" "$here/install.sh" "$work/none" 2> "$work/said"; then fail "aarch64 was taken"; fi
[ ! -e "$work/none" ] || fail "a refused install left files"
echo "release: an older C library and another machine are refused, and told"

# README's first run, in a root with the C library alone where that can be made
root=$work/root
mkdir "$root"
cp -R "$prefix" "$root/usr"
for file in $(ldd "$prefix/bin/radixvm" | grep -o '/[^ ]*'); do cp --parents -L "$file" "$root"; done
if chroot "$root" /usr/bin/radixvm --version > /dev/null 2>&1; then
    chroot "$root" /usr/bin/radixvm run < "$prefix/share/radixvm/examples/first.trace" > "$work/out"
    where="in a root with the C library alone"
else
    env -i "$prefix/bin/radixvm" run < "$prefix/share/radixvm/examples/first.trace" > "$work/out"
    where="with no environment"
fi
diff "$top/examples/first.out" "$work/out"
echo "first run: examples/first.out, $where"

# the documents' pictures, and the headers and examples that README names, are found from where the documents lie
doc=$prefix/share/doc/radixvm
for page in "$doc"/README.md "$doc"/docs/*.md; do
    for picture in $(grep -o '!\[[^]]*\]([^)]*)' "$page" | sed 's/.*(\(.*\))/\1/'); do
        [ -s "$(dirname "$page")/$picture" ] || fail "$page shows $picture, which isn't there"
    done
done
for file in $(grep -oE '\b(include|examples|docs)/[A-Za-z0-9_./-]*[A-Za-z0-9]' "$doc/README.md" | sort -u); do
    [ -s "$doc/$file" ] || fail "README names $file, which isn't installed"
done
echo "documents: $(ls "$doc"/docs/*.md | wc -l) and README, whose files are there"

# the shared library
wanted=$(grep -o '\bradixvm_[a-z_]*(' "$prefix/include/radixvm.h" | tr -d '(' | sort -u)
shown=$(nm -D --defined-only "$prefix/lib/libradixvm.so" | awk '{ print $3 }' | sort -u)
[ "$wanted" = "$shown" ] || fail "the shared library shows other names: $(diff <(echo "$wanted") <(echo "$shown"))"
objdump -p "$prefix/lib/libradixvm.so" | grep -q "SONAME *libradixvm.so.[0-9]" || fail "the shared library has no soname"
echo "shared library: $(echo "$shown" | wc -l) names, those of the header"
python3 "$top/install/from_python.py" "$prefix/lib/libradixvm.so" "$prefix/include/radixvm.h"
LD_PRELOAD=$prefix/lib/libradixvm-record.so RADIXVM_RECORD=$work/calls python3 -c 'import mmap; [mmap.mmap(-1, 5000).close() for i in range(99)]'
for record in "$work"/calls.*; do "$prefix/bin/radixvm-record" "$record" | "$prefix/bin/radixvm" audit --overlapping --any-place > "$work/said" || fail "a record: $(cat "$work/said")"; done
echo "recorder: python's calls are $(cat "$work/said")"
if command -v pkg-config > /dev/null; then
    export PKG_CONFIG_PATH=$prefix/lib/pkgconfig
    printf '#include <radixvm.h>\nint main(void) { radixvm_machine m = {0}; return radixvm_version() != RADIXVM_VERSION || radixvm_cores(&m) != 0; }\n' > "$work/use.c"
    for compiler in "${CC:-cc} -std=c11" "${CXX:-c++} -std=c++17 -x c++"; do
        $compiler -Wall -Wextra -Werror "$work/use.c" -x none $(pkg-config --cflags --libs radixvm) -o "$work/use"
        LD_LIBRARY_PATH=$prefix/lib "$work/use"
        $compiler -Wall -Wextra -Werror "$work/use.c" -x none $(pkg-config --cflags radixvm) "$(pkg-config --variable=libdir radixvm)/libradixvm.a" -o "$work/use"
        env -i "$work/use"
    done
    echo "pkg-config $(pkg-config --modversion radixvm): C and C++, with the shared library and with the archive"
fi

# man pages say what help says; completions are read by their shells
pages=0
for page in "$prefix"/share/man/man?/*; do
    name=$(basename "$page")
    topic=$(echo "${name%.*}" | sed 's/^radixvm-*//')
    if command -v man > /dev/null; then
        MANWIDTH=100 man --warnings -l "$page" > "$work/page" 2> "$work/said"
        [ ! -s "$work/said" ] || fail "$name: $(cat "$work/said")"
        # The heads of a help text are sections of its page, and another page is named as man names it.
        "$prefix/bin/radixvm" help $topic | sed -E 's/^(Usage|Status): //; /^(Options( of all commands)?|Examples|Status, of all commands):$/d' > "$work/help"
        sed -E -i 's/radixvm[-‐](\w+)\([157]\)/help \1/g' "$work/page"
        lacks=$(awk '{ $1 = $1 } FNR == NR { page = page " " $0; next } NF && !index(page, $0) { print; exit }' "$work/page" "$work/help")
        [ -z "$lacks" ] || fail "$name lacks: $lacks"
    fi
    if command -v mandoc > /dev/null; then mandoc -T lint "$page" > "$work/said" || fail "$name: $(cat "$work/said")"; fi
    pages=$((pages + 1))
done
echo "man: $pages pages"
complete_bash() { # WORDS..
    bash -c 'source "$1"; shift; COMP_WORDS=("$@"); COMP_CWORD=$(($# - 1)); _radixvm; echo "${COMPREPLY[*]}"' bash "$prefix/share/bash-completion/completions/radixvm" radixvm "$@"
}
[ "$(complete_bash pic)" = picture ] || fail "bash: pic is completed to $(complete_bash pic)"
[ "$(complete_bash run --lo)" = "--log --long" ] || fail "bash: run --lo is completed to $(complete_bash run --lo)"
[ "$(complete_bash help out)" = outcomes ] || fail "bash: help out is completed to $(complete_bash help out)"
[ "$(complete_bash run --color "")" = "auto always never" ] || fail "bash: run --color is completed to $(complete_bash run --color "")"
shells=bash
complete_zsh() { # WORDS.., of which the last is completed: what the completion offers
    zsh -fc '_describe() { print -l -- $commands }; _arguments() { print -l -- $@ }
        file=$1; shift; words=("$@"); CURRENT=$#; source $file' zsh "$prefix/share/zsh/site-functions/_radixvm" radixvm "$@"
}
if command -v zsh > /dev/null; then
    complete_zsh pic | grep -q '^picture:draws a trace' || fail "zsh: pic"
    complete_zsh litmus --pic | grep -qF -e '--picture[draws that trace (help picture)]:N:' || fail "zsh: litmus --pic"
    shells="$shells, zsh"
fi
if command -v fish > /dev/null; then
    [ "$(fish -c "source '$prefix/share/fish/vendor_completions.d/radixvm.fish'; complete -C 'radixvm pic'" | cut -f 1)" = picture ] || fail "fish: pic"
    [ "$(fish -c "source '$prefix/share/fish/vendor_completions.d/radixvm.fish'; complete -C 'radixvm state --until '" | cut -f 1 | sort | xargs)" = "stale unused waits" ] || fail "fish: state --until"
    shells="$shells, fish"
fi
echo "completions: $shells"

RADIXVM_PROGRAM=$prefix/bin/radixvm "$top/bench/docs.py"
if command -v cargo > /dev/null; then
    (cd "$prefix/share/radixvm/rust" && CARGO_TARGET_DIR=$work/rust cargo test --offline -q > "$work/said" 2>&1) || fail "the Rust crate: $(cat "$work/said")"
    echo "Rust: the installed crate's tests passed"
fi
RADIXVM_LIBRARY=$prefix/lib RADIXVM_PROGRAM=$prefix/bin/radixvm RADIXVM_INCLUDE=$prefix/include "$top/bindings/test.sh" "${1:-3}"
echo "bindings/test.sh passed over the installed files"
