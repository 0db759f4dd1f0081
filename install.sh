#!/bin/sh
# Proves the library and installs it for C and C++ on x86-64. Call: ./install.sh PREFIX (--help says more)
set -eu
unset CDPATH

usage() {
    cat <<'END'
usage: ./install.sh [--library FILE] PREFIX

Proves the library (some minutes the first time, less after that; each crate is said as it is proved), then lays down
  PREFIX/include/beksanour.h            the calls, and the manual of each
  PREFIX/lib/libbeksanour.a             the library, to be linked into a program
  PREFIX/lib/libbeksanour.so.VERSION    the same as a shared library, and its two links
  PREFIX/lib/pkgconfig/beksanour.pc     for pkg-config
  PREFIX/share/doc/beksanour/           LICENSE, NOTICE and CHANGELOG.md
Nothing else is written, but for target/ here. PREFIX is made where it is missing; files of these names in it are replaced. Its
name may have no blank, comma, quote, backslash, $ or #, which pkg-config and the linker take apart.

  --library FILE   installs this library, which `rt lib` wrote before in crates/desk, and proves nothing; one that lacks a function of
                   the header is refused, as every one of a version before 0.11.0 is, which lacks bk_pyramid_why. Nothing else
                   of its version is looked at: give one that was made of this version
  --help           this

It needs the Rattle kit (rt in the PATH; not with --library) and a C compiler for x86-64 Linux: $CC, else cc, else gcc.
The status is 0 when all is installed, 1 where something was not proved or a step failed, 2 where the call or the machine is wrong.
END
}

wrong() {
    echo "install.sh: $*" >&2
    exit 2
}

# ---- the call

library='' prefix=''
while [ $# -gt 0 ]; do
    case $1 in
    -h | --help)
        usage
        exit 0
        ;;
    --library)
        [ -n "${2-}" ] || wrong "--library needs a file"
        library=$2
        shift
        ;;
    -*) wrong "$1 is no option; ./install.sh --help says what there is" ;;
    *)
        [ -z "$prefix" ] || wrong "one PREFIX, and not also $1"
        prefix=$1
        ;;
    esac
    shift
done
[ -n "$prefix" ] || {
    usage >&2
    exit 2
}

# ---- what is needed

if [ -z "${CC-}" ]; then
    CC=cc
    command -v cc >/dev/null || CC=gcc
    command -v "$CC" >/dev/null || wrong "there is no C compiler: neither cc nor gcc is in the PATH"
fi
machine=$($CC -dumpmachine) || wrong "$CC does not say which machine it compiles for"
case $machine in
x86_64-*linux* | amd64-*linux*) ;;
*) wrong "the library is x86-64 code for Linux, and $CC compiles for $machine; CC=COMPILER names another" ;;
esac
root=$(cd "$(dirname "$0")" && pwd -P)

# Ends with 2 where the header declares a function that a library has not.
holds_all() { # LIBRARY
    names=$("$($CC -print-prog-name=nm)" -g --defined-only "$1" 2>/dev/null) || wrong "$1 is no library"
    lacks=''
    for function in $(sed -n 's/^bk_[a-z]* \(bk_[a-z0-9_]*\)(.*/\1/p' "$root/include/beksanour.h"); do
        case "$names
" in
        *" T $function
"*) ;;
        *) lacks="$lacks $function" ;;
        esac
    done
    [ -z "$lacks" ] || wrong "$1 lacks what include/beksanour.h declares:$lacks"
}

# Ends with 2 where the name of a folder has what pkg-config or the linker takes apart.
plain() { # FOLDER
    case $1 in
    *[[:space:],\"\'\\\$\#]*) wrong "a blank, comma, quote, backslash, \$ or # is in the name of PREFIX, which is $1" ;;
    esac
}

if [ -n "$library" ]; then
    [ -f "$library" ] && [ -r "$library" ] || wrong "$library is not a file that can be read"
    library=$(readlink -f "$library")
    holds_all "$library"
else
    command -v rt >/dev/null || wrong "rt, the program of the Rattle kit, is not in the PATH"
fi
case $prefix in
/*) ;;
*) prefix=$(pwd -P)/$prefix ;;
esac
plain "$prefix"
mkdir -p "$prefix" && [ -w "$prefix" ] || wrong "nothing can be written to $prefix"
prefix=$(cd "$prefix" && pwd -P)
plain "$prefix"
cd "$root"

# The number after a BK_VERSION_ of the header.
version_of() { sed -n "s/^#define BK_VERSION_$1 \([0-9][0-9]*\)\$/\1/p" include/beksanour.h; }

series=$(version_of MAJOR).$(version_of MINOR)
version=$series.$(version_of PATCH)

# ---- the proof

if [ -n "$library" ]; then
    echo "install.sh: nothing is proved now: $library is installed as it is"
else
    library=crates/desk/out/libdesk.a
    echo "install.sh: proving the library, whose last crate is desk (target/install.log has all of it)"
    tests/desk/prove target/install.log desk lib || exit 1
    holds_all "$library"
fi

# ---- the files

# A minor version may change a call as long as the major one is 0, so both are in the name that programs look for.
real=libbeksanour.so.$version name=libbeksanour.so.$series
room=$(mktemp -d)
trap 'rm -rf "$room"' EXIT
echo '{ global: bk_*; local: *; };' >"$room/map"
$CC -shared -Wl,-soname,"$name" -Xlinker --version-script -Xlinker "$room/map" -Wl,-z,defs -o "$room/$real" \
    -Wl,--whole-archive "$library" -Wl,--no-whole-archive

mkdir -p "$prefix/include" "$prefix/lib/pkgconfig" "$prefix/share/doc/beksanour"
install -m 644 include/beksanour.h "$prefix/include/beksanour.h"
install -m 644 "$library" "$prefix/lib/libbeksanour.a"
install -m 755 "$room/$real" "$prefix/lib/$real"
ln -sf "$real" "$prefix/lib/$name"
ln -sf "$name" "$prefix/lib/libbeksanour.so"
cat >"$prefix/lib/pkgconfig/beksanour.pc" <<END
prefix=$prefix
includedir=\${prefix}/include
libdir=\${prefix}/lib

Name: beksanour
Description: The numeric core of a review desk for machine vibration surveys
Version: $version
Cflags: -I\${includedir}
Libs: -L\${libdir} -lbeksanour
END
install -m 644 LICENSE NOTICE CHANGELOG.md "$prefix/share/doc/beksanour/"

echo "install.sh: Beksanour $version is in $prefix:"
for file in include/beksanour.h lib/libbeksanour.a "lib/$real" "lib/$name" lib/libbeksanour.so lib/pkgconfig/beksanour.pc \
    share/doc/beksanour/LICENSE share/doc/beksanour/NOTICE share/doc/beksanour/CHANGELOG.md; do
    echo "  $file"
done
