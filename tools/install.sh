#!/bin/sh
# Installs below a folder: the library with its header and its pkg-config file, the program keptlist, the command jenwyllt, the manual and the licences.
#
#     tools/install.sh PREFIX
#
# What target/ does not hold yet is proved and built first; a target/ that was built elsewhere is installed without the toolchain.
set -eu
if [ "${1:-}" = --help ]; then
    echo "usage: tools/install.sh PREFIX"
    echo "Installs library, header, pkg-config file, the program keptlist, the command jenwyllt, manual and licences below the folder PREFIX."
    exit 0
fi
usage() {
    echo "usage: tools/install.sh PREFIX" >&2
    exit 2
}
[ $# -eq 1 ] || usage
case $1 in '' | -*) usage ;; esac
mkdir -p "$1"
prefix=$(cd "$1" && pwd -P)
cd "$(dirname "$0")/.."

if [ ! -f target/lib/libjenwyllt.a ] || [ ! -f target/lib/libjenwyllt.so ]; then tools/build_library.sh; fi
if [ ! -x target/bin/keptlist ]; then
    # The toolchain builds a program where it runs it: here on no bytes.
    mkdir -p target/bin
    (cd crates/keptlist && rt run) </dev/null >/dev/null 2>target/bin/keptlist.log || {
        tail -n 20 target/bin/keptlist.log >&2
        exit 1
    }
    install -D -m 755 crates/keptlist/out/keptlist target/bin/keptlist
fi

major=$(sed -n 's/^#define JENWYLLT_VERSION_MAJOR //p' include/jenwyllt.h)
version=$(sed -n 's/^#define JENWYLLT_VERSION "\(.*\)"/\1/p' include/jenwyllt.h)
put() { # MODE FILE FOLDER
    install -d "$prefix/$3"
    install -m "$1" "$2" "$prefix/$3/"
}

put 644 target/lib/libjenwyllt.a lib
install -m 755 target/lib/libjenwyllt.so "$prefix/lib/libjenwyllt.so.$version"
ln -sf "libjenwyllt.so.$version" "$prefix/lib/libjenwyllt.so.$major"
ln -sf "libjenwyllt.so.$version" "$prefix/lib/libjenwyllt.so"
put 644 include/jenwyllt.h include
install -d "$prefix/lib/pkgconfig"
sed -e "s|@PREFIX@|$prefix|" -e "s|@VERSION@|$version|" include/jenwyllt.pc.in >"$prefix/lib/pkgconfig/jenwyllt.pc"

put 755 target/bin/keptlist bin
rm -rf "$prefix/lib/jenwyllt"
(cd bindings/python && find jenwyllt -name '*.py' -o -name '*.html' -o -name py.typed) | while IFS= read -r module; do
    put 644 "bindings/python/$module" "lib/jenwyllt/$(dirname "$module")"
done
# The same script as in the checkout, which finds the package beside the library.
sed "s|^sys.path\[0\] = .*|sys.path[0] = str(Path(__file__).resolve().parents[1] / 'lib' / 'jenwyllt')|; s|of this checkout|, installed|" tools/jenwyllt >"$prefix/bin/jenwyllt"
chmod 755 "$prefix/bin/jenwyllt"

put 644 docs/jenwyllt.1 share/man/man1
echo '.so man1/jenwyllt.1' >"$prefix/share/man/man1/keptlist.1"
for file in LICENSE LICENSE-MIT LICENSE-APACHE NOTICE CHANGELOG.md; do put 644 "$file" share/doc/jenwyllt; done
echo "installed below $prefix"
