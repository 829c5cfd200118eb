# The installed library: its names, and a program in C over it. Read by run.
# shellcheck shell=sh

# examples/list.c as a user of the installed library has it.
sed 's/#include "clp.h"/#include <smclp\/clp.h>/' examples/list.c >"$tmp/list.c"
lists() { "$@" <"$capture" | cmp - crates/clplist/stdout; } # PROGRAM..

library() {
    file=$own/lib/libsmclp.so.$version
    try "another soname" is "$(readelf -dW "$file" | sed -n 's/.*(SONAME).*\[\(.*\)\]/\1/p')" "$soname"
    try "it needs other libraries than libc" is "$(readelf -dW "$file" | sed -n 's/.*(NEEDED).*\[\(.*\)\]/\1/p')" libc.so.6
    try "it exports other names than the header's" is "$(nm -D --defined-only "$file" | awk '{ print $3 }' | sort)" \
        "$(grep -o 'clp_[a-z_]*(' "$own/include/smclp/clp.h" | tr -d '(' | sort -u)"
    try "it needs more or less than memcpy and memset" is "$(nm -D --undefined-only "$file" | awk '$1 == "U" { sub(/@.*/, "", $2); print $2 }' | sort | tr '\n' ' ')" "memcpy memset "
    try "it is for another machine" [ "$(readelf -hW "$file" | grep -c "Machine:.*$(echo "$machine" | sed 's/x86_64/X86-64/; s/aarch64/AArch64/')")" = 1 ]
}

# What pkg-config says of smclp.
config() { # FOLDER SYSROOT ARGUMENT..
    folder=$1
    sysroot=$2
    shift 2
    PKG_CONFIG_LIBDIR=$folder PKG_CONFIG_SYSROOT_DIR=$sysroot pkg-config "$@" smclp | sed 's/ *$//'
}
described() {
    try "pkg-config: another version" is "$(config "$own/lib/pkgconfig" '' --modversion)" "$version"
    try "pkg-config: other flags" is "$(config "$own/lib/pkgconfig" '' --cflags --libs)" "-I$own/include -L$own/lib -lsmclp"
    try "pkg-config: other flags for a tree that was moved" is "$(config "$own/lib/pkgconfig" '' --define-variable=prefix=/else --cflags --libs)" "-I/else/include -L/else/lib -lsmclp"
    try "pkg-config: other flags below DESTDIR" is "$(config "$dest/usr/lib/pkgconfig" "$dest" --cflags --libs)" "-I$dest/usr/include -L$dest/usr/lib -lsmclp"
    try "installing into folders of their own" env DESTDIR="$at/wide" PREFIX=/usr LIBDIR=/lib64 INCLUDEDIR=/usr/include/more PATH="$tmp/no-kit:$PATH" packaging/install
    try "pkg-config: other flags for folders of their own" is "$(config "$at/wide/lib64/pkgconfig" "$at/wide" --cflags --libs)" "-I$at/wide/usr/include/more -L$at/wide/lib64 -lsmclp"
}

# The program with the shared and with the static library.
in_c() { # LIBRARY-FOLDER CONFIG-FOLDER SYSROOT
    # shellcheck disable=SC2046
    try "C: compiling with the shared library" gcc -O2 -Wall -Wextra -Werror "$tmp/list.c" $(config "$2" "$3" --cflags --libs) -o "$tmp/shared"
    # shellcheck disable=SC2046
    try "C: compiling with the static library" gcc -O2 -Wall -Wextra -Werror "$tmp/list.c" -Wl,-Bstatic $(config "$2" "$3" --cflags --libs --static) -Wl,-Bdynamic -o "$tmp/static"
    try "C: the one does not need $soname" needs "$tmp/shared"
    try "C: the other needs $soname" not needs "$tmp/static"
    try "C, shared: the text is not $capture's" lists env LD_LIBRARY_PATH="$1" "$tmp/shared"
    try "C, static: the text is not $capture's" lists "$tmp/static"
}
needs() { readelf -dW "$1" | grep -F "(NEEDED)" | grep -qF "[$soname]"; } # PROGRAM
