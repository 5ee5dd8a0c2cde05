#!/bin/sh
# Installs this release. Usage: ./install.sh [PREFIX], ~/.local where none is given
set -eu
here=$(cd "$(dirname "$0")" && pwd)
prefix=${1:-$HOME/.local}
wanted=@GLIBC@
if [ "$(uname -s)/$(uname -m)" != Linux/x86_64 ]; then
    echo "install.sh: this release is for x86-64 Linux, and this is $(uname -s) on $(uname -m)" >&2
    exit 1
fi
libc=$(getconf GNU_LIBC_VERSION 2> /dev/null | sed -n 's/^glibc //p')
if [ "$(printf '%s\n' "$wanted" "${libc:-0}" | sort -V | head -n 1)" != "$wanted" ]; then
    echo "install.sh: the program needs glibc $wanted or newer, and this is ${libc:-another C library}" >&2
    exit 1
fi
mkdir -p "$prefix"
for part in bin include lib share; do cp -R "$here/$part" "$prefix/"; done
echo "installed under $prefix: bin/radixvm, include/radixvm.h, lib/libradixvm.a, lib/libradixvm.so"
case :$PATH: in *":$prefix/bin:"*) ;; *) echo "$prefix/bin isn't on the PATH yet" ;; esac
