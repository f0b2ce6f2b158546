#!/usr/bin/env bash
# Builds the C library and installs it.
#
# usage: package.sh [--built | --after-gate] PREFIX
#
# Under PREFIX come the static and the shared library, the header, the file of pkg-config, the licence, the README of the C interface, its
# example with its output, and the changelog. Next to PREFIX comes an archive of the same tree, which is the same byte for byte if it is made again from the
# same build.
# If PREFIX is missing, it is made when there is something to put in it.
#
# With --built the library of crates/bitmap_c is not built again. It has to be newer than the sources.
# With --after-gate it is built over the libraries that `rt ci` has just left in crates/*/out, and only crates/bitmap_c is
# proved again. If that cannot be, it is built as without the option.
#
# This needs the Rattle toolchain (`rt`), a C compiler and binutils. The first build proves crates/bitmap_c and every crate
# below it, which is most of the gate's work. Later builds reuse what is in crates/*/out.
set -euo pipefail
umask 022
version=0.1.0
name=mortarpink-$version-x86_64-linux

from=sources
case ${1:-} in
    --built | --after-gate)
        from=${1#--}
        shift
        ;;
esac
if (($# != 1)) || [[ $1 == -* ]]; then
    echo "usage: package.sh [--built | --after-gate] PREFIX" >&2
    exit 2
fi
for tool in rt cc ld objcopy ar tar gzip; do
    if ! command -v "$tool" >/dev/null; then
        echo "package: this machine has no $tool" >&2
        exit 1
    fi
done
prefix=$(realpath -ms "$1")
above=$prefix
while [[ ! -e $above ]]; do
    above=$(dirname "$above")
done
if [[ ! -d $above || ! -w $above ]]; then
    echo "package: $above is not a folder that can be written" >&2
    exit 1
fi
cd "$(dirname "$0")/.."
work=$(mktemp -d)
trap 'rm -rf "$work"' EXIT
tree=$work/$name

built_library=crates/bitmap_c/out/libbitmap_c.a

# Builds the archive that `rt lib` makes of crates/bitmap_c.
build() {
    if [[ ! -e $built_library ]]; then
        echo "package: the first build proves bitmap_c and every crate below it; this takes long" >&2
    fi
    (cd crates/bitmap_c && rt lib)
}

# Builds that archive over the libraries that `rt ci` left. Fails if some are missing, or are of an earlier `rt lib`.
build_after_gate() {
    local rattle name library words=()
    rattle=$(dirname "$(rt doc)")
    for name in std $(sed -n 's/^bitmap_c staticlib: //p' crates.txt); do
        library=$rattle/rlibs/$name.rlib
        if [[ -d crates/$name ]]; then
            library=$PWD/crates/$name/out/rlib/$name.rlib
        fi
        if [[ ! -e $library/format || -e ${library%/*}/stamp ]]; then
            return 1
        fi
        words+=(--extern "$name=$library")
    done
    for library in "$PWD"/crates/*/out/rlib "$rattle/rlibs"; do
        words+=(-L "dependency=$library")
    done
    words+=(--antt-project "$rattle/rattle/logic/antt-project.json" --logic-built "$rattle/logic_built" --toolchain "$rattle/toolchain")
    mkdir -p "${built_library%/*}"
    (cd crates/bitmap_c && "$rattle/bin/rattle" build --crate-name bitmap_c src/lib.rt "${words[@]}" --jobs "$(nproc)" \
        --crate-type staticlib --backend llvm -o "../../$built_library")
}

# Fails if there is no archive, or if it is older than a source of any crate.
check_built() {
    if [[ ! -e $built_library ]] || [[ -n $(find crates.txt crates/*/src crates/*/specs ! -type d -newer "$built_library" -print -quit) ]]; then
        echo "package: $built_library is missing, or older than the sources: run this without --built" >&2
        return 1
    fi
}

# Makes one object of the archive, its C library and the status texts. Only the names of the header stay global.
link_object() {
    cc -O2 -fPIC -Wall -Wextra -Wpedantic -Ibindings/c -c -o "$work/status_text.o" bindings/c/status_text.c
    ld -r -o "$work/all.o" --whole-archive "$built_library" "$(dirname "$(rt doc)")/c/liblibc_c.a" \
        --no-whole-archive "$work/status_text.o"
    objcopy --wildcard --keep-global-symbol='mortarpink_*' "$work/all.o" "$work/mortarpink.o"
}

write_libraries() {
    local shared=libmortarpink.so
    mkdir -p "$tree/lib"
    ar rcsD "$tree/lib/libmortarpink.a" "$work/mortarpink.o"
    cc -shared -s -Wl,-soname,"$shared.${version%%.*}" -Wl,-z,defs,-z,text -o "$tree/lib/$shared.$version" "$work/mortarpink.o"
    ln -s "$shared.$version" "$tree/lib/$shared.${version%%.*}"
    ln -s "$shared.${version%%.*}" "$tree/lib/$shared"
}

# The file finds the prefix from its own place, so the tree can be moved.
write_pkgconfig() {
    mkdir -p "$tree/lib/pkgconfig"
    cat >"$tree/lib/pkgconfig/mortarpink.pc" <<END
prefix=\${pcfiledir}/../..
libdir=\${prefix}/lib
includedir=\${prefix}/include

Name: mortarpink
Description: Bitmaps with numbered commits, past versions of which are read in place
Version: $version
Cflags: -I\${includedir}
Libs: -L\${libdir} -lmortarpink
END
}

write_rest() {
    install -D -m 644 bindings/c/mortarpink.h "$tree/include/mortarpink.h"
    install -D -m 644 LICENSE "$tree/share/licenses/mortarpink/LICENSE"
    install -D -m 644 -t "$tree/share/doc/mortarpink" bindings/c/README.md bindings/c/example.c bindings/c/example.stdout CHANGELOG.md
}

# Installs the tree, and writes its archive with sorted names, one owner and one time.
install_tree() {
    mkdir -p "$prefix"
    cp -dR --remove-destination "$tree/." "$prefix/"
    tar --sort=name --format=ustar --owner=0 --group=0 --numeric-owner --mtime='2026-01-01 00:00:00Z' \
        -C "$work" -cf - "$name" | gzip -9n >"$(dirname "$prefix")/$name.tar.gz"
}

case $from in
    built) check_built ;;
    after-gate) build_after_gate || build ;;
    sources) build ;;
esac
link_object
write_libraries
write_pkgconfig
write_rest
install_tree
echo "package: $prefix, and $(dirname "$prefix")/$name.tar.gz"
