# The trees that packaging/install makes, file by file, and what is left where they are taken away. Read by run.
# shellcheck shell=sh

# Where all that is built is there, the kit is asked for nothing: this one notes that it was.
mkdir "$tmp/no-kit"
printf '#!/bin/sh\necho "$*" >>"%s/asked"\nexit 1\n' "$tmp" >"$tmp/no-kit/rt"
chmod +x "$tmp/no-kit/rt"
installs() { PATH=$tmp/no-kit:$PATH packaging/install "$@"; }

# What there is in a folder: a mode and a path, or a link and where it leads.
listed() { # FOLDER
    (cd "$1" && find . -mindepth 1 \( -type l -printf 'link %P -> %l\n' -o -printf '%m %P\n' \)) | sort
}
# What there should be below PREFIX.
wanted() { # LIB, the library's folder there
    cat <<LIST
755 bin
755 bin/clpexplain
755 bin/clplist
755 bin/clpreply
755 include
755 include/smclp
644 include/smclp/clp.h
755 lib
644 $1/libsmclp.a
link $1/libsmclp.so -> $soname
link $1/$soname -> libsmclp.so.$version
644 $1/libsmclp.so.$version
755 $1/pkgconfig
644 $1/pkgconfig/smclp.pc
755 lib/python3
755 lib/python3/dist-packages
644 lib/python3/dist-packages/smclp.py
755 share
755 share/libsigrokdecode
755 share/libsigrokdecode/decoders
755 share/libsigrokdecode/decoders/smclp
644 share/libsigrokdecode/decoders/smclp/__init__.py
644 share/libsigrokdecode/decoders/smclp/clp.py
644 share/libsigrokdecode/decoders/smclp/pd.py
755 share/man
755 share/man/man1
644 share/man/man1/clpexplain.1.gz
644 share/man/man1/clplist.1.gz
644 share/man/man1/clpreply.1.gz
LIST
    [ "$1" = lib ] || echo "755 $1"
}
holds() { listed "$1" >"$tmp/got" && wanted "$2" | sort | diff - "$tmp/got"; } # FOLDER LIB
sums() { (cd "$1" && find . -type f -exec md5sum {} + | sort -k 2); } # FOLDER
# No file has a text in it, packed or not.
without() { # TEXT FOLDER
    ! grep -rF "$1" "$2" && find "$2" -name '*.gz' -exec gzip -dc {} + >"$tmp/unpacked" && ! grep -F "$1" "$tmp/unpacked"
}
# What is packed has neither a name nor a time in it, which would be another each time.
packed() { # FOLDER
    find "$1" -name '*.gz' | while IFS= read -r gz; do gzip -dc "$gz" | gzip -n9 | cmp - "$gz" || echo "$gz"; done | not grep .
}

install_own() { MACHINE=$machine PREFIX=$own installs; }
install_dest() { MACHINE=$machine PREFIX=/usr DESTDIR=$dest installs; }
install_masked() { (umask 077 && install_dest); }
remove() { MACHINE=$machine PREFIX=$1 DESTDIR=$2 installs --uninstall; } # PREFIX DESTDIR

# A PREFIX of its own, and a tree below DESTDIR as a package has it; both stay for the other checks.
trees() {
    try "installing, with what is missing built" env MACHINE="$machine" DESTDIR="$at/first" packaging/install
    try "installing into a PREFIX of its own" install_own
    try "PREFIX: other files, links or modes than expected" holds "$own" lib
    try "installing into DESTDIR, with PREFIX=/usr" install_dest
    try "DESTDIR: other files, links or modes than expected" holds "$dest/usr" lib
    try "DESTDIR: more than usr" is "$(ls -A "$dest")" usr
    sums "$own" >"$tmp/sums"
    try "installing a second time" install_own
    try "a second time: other files, links or modes" holds "$own" lib
    try "a second time: other bytes" is "$(sums "$own")" "$(cat "$tmp/sums")"
    rm -rf "$dest"
    try "installing with umask 077" install_masked
    try "umask 077: other files, links or modes" holds "$dest/usr" lib
    try "umask 077: DESTDIR has another mode than 755" is "$(stat -c %a "$dest")" 755
    try "a packed file has a name or a time in it" packed "$own"
    try "the build's path in a file below PREFIX" without "$root" "$own"
    try "DESTDIR's path in a file below it" without "$tmp" "$dest"
    try "the header is not include/clp.h" cmp include/clp.h "$own/include/smclp/clp.h"
    try "the archive is not the one that was built" cmp "target/library/$machine/libsmclp.a" "$own/lib/libsmclp.a"
    try "the decoder's clp.py is not the Python module" cmp bindings/python/smclp.py "$own/share/libsigrokdecode/decoders/smclp/clp.py"
    try "the kit was asked: $(cat "$tmp/asked" 2>/dev/null)" [ ! -e "$tmp/asked" ]
}

# What others have put there stays; what Python compiled goes too.
removal() {
    python3 -m compileall -q "$own" >/dev/null
    try "nothing was compiled that has to go" [ -d "$own/lib/python3/dist-packages/__pycache__" ]
    : >"$own/lib/other"
    try "taking away" remove "$own" ''
    try "taken away: more or less is left than what others have put there" is "$(listed "$own" | tr '\n' ' ')" "644 lib/other 755 lib "
    try "taking away below DESTDIR" remove /usr "$dest"
    try "taken away below DESTDIR: something is left" is "$(listed "$dest")" "755 usr"
}
