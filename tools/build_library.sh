#!/bin/sh
# Builds target/lib/libjenwyllt.a and target/lib/libjenwyllt.so from the static library jenwyllt_c, whose functions are what C calls: nothing else of it can be
# seen. Where neither that crate nor one below it has changed, what is there stays.
set -eu
CRATE=jenwyllt_c

cd "$(dirname "$0")/.."
lib=target/lib
parts=$lib/parts

stop() { # STATUS SENTENCE
    echo "build_library: $2" >&2
    exit "$1"
}
case "$#:${1:-}" in
0:) ;;
1:--help)
    echo "usage: tools/build_library.sh"
    echo "Proves the crate that exports functions to C ($CRATE) and builds $lib/libjenwyllt.a and $lib/libjenwyllt.so; where nothing has changed, nothing is built again."
    exit 0
    ;;
*) stop 2 "usage: tools/build_library.sh [--help]" ;;
esac
need() { # COMMAND PACKAGE
    command -v "$1" >/dev/null || stop 2 "$1 is missing: it comes with the package $2"
}
need rt "rattle-kit, the Rattle toolchain"
need cc "gcc (or another C compiler)"
for tool in ld nm ar objcopy; do need "$tool" binutils; done

below() { # the crates of this repository that the library depends on
    for one in $(sed -n "s/^$CRATE staticlib: *//p" crates.txt); do
        if [ -d "crates/$one" ]; then echo "$one"; fi
    done
}
made_from() { # a sum over all that the library is made from
    {
        rt version
        for one in "$CRATE" $(below); do find "crates/$one" -type f ! -path '*/must-fail/*' ! -path '*/out/*'; done | LC_ALL=C sort | xargs cksum
    } | cksum
}

mkdir -p "$parts"
if [ ! -f "$lib/libjenwyllt.a" ] || [ ! -f "$lib/libjenwyllt.so" ] || [ "$(made_from)" != "$(cat "$parts/sum" 2>/dev/null)" ]; then
    rm -f "$parts/sum"
    echo "build_library: proving and building $CRATE; with nothing proved yet this takes about half an hour ($parts/$CRATE.log)" >&2
    (cd "crates/$CRATE" && rt lib) >"$parts/$CRATE.log" 2>&1 || {
        tail -n 20 "$parts/$CRATE.log" >&2
        stop 1 "the library is not proved"
    }
    object=$parts/jenwyllt.o
    ld -r --whole-archive "crates/$CRATE/out/lib$CRATE.a" -o "$object"
    nm --defined-only --extern-only --format=posix "$object" | cut -d ' ' -f 1 | grep '^jenwyllt_' >"$parts/exports" || stop 1 "$CRATE exports nothing"
    objcopy --keep-global-symbols="$parts/exports" "$object"
    rm -f "$lib/libjenwyllt.a"
    major=$(sed -n 's/^#define JENWYLLT_VERSION_MAJOR //p' include/jenwyllt.h)
    ar rcsD "$lib/libjenwyllt.a" "$object"
    cc -shared -o "$lib/libjenwyllt.so" -Wl,-soname,"libjenwyllt.so.$major" -Wl,-z,defs "$object"
    ln -sf libjenwyllt.so "$lib/libjenwyllt.so.$major"
    made_from >"$parts/sum"
fi
echo "build_library: $lib/libjenwyllt.a and libjenwyllt.so, $(wc -l <"$parts/exports") functions" >&2
