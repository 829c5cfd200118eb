# The Debian package. Read by run.
# shellcheck shell=sh

make_deb() { MACHINE=$machine PATH=$tmp/no-kit:$PATH packaging/deb; }
make_deb_of() { (export DEBFULLNAME="$1" DEBEMAIL="$2" SOURCE_DATE_EPOCH="$3" && make_deb); } # NAME MAIL TIME
make_deb_again() { (umask 077 && mkdir "$at/other" && TMPDIR=$at/other make_deb); }

package() {
    case $machine in x86_64) arch=amd64 ;; aarch64) arch=arm64 ;; esac
    triplet=$machine-linux-gnu
    deb=target/deb/smclp_$version-1_$arch.deb
    out=$at/deb
    rm -f "$deb"
    try "package: without dpkg-deb: not said" [ "$(PATH=$at/bare packaging/deb 2>&1 | grep -c 'no command dpkg-deb was found')" = 1 ]
    # at a time that is still to come: later ones dpkg-deb sets back by itself
    try "package: by another, at another time: it is not made" make_deb_of "A B" a@b.example 4102444800
    try "package: by another: not named" is "$(dpkg-deb --field "$deb" Maintainer)" "A B <a@b.example>"
    try "package: at another time: not its own" is "$(TZ=UTC dpkg-deb --contents "$deb" | awk '{ print $4, $5 }' | sort -u)" "2100-01-01 00:00"
    rm -f "$deb"
    try "package: it is not made" make_deb
    try "package: no $deb" [ -f "$deb" ] || return
    mv "$deb" "$at/first.deb"
    try "package: it is not made a second time" make_deb_again
    try "package: other bytes the second time" cmp "$at/first.deb" "$deb"
    dpkg-deb --raw-extract "$deb" "$out"
    contents
    control
    try "package: a packed file has a name or a time in it" packed "$out"
    try "package: the build's path in a file" without "$root" "$out"
    try "package: a temporary folder in a file" without "${TMPDIR:-/tmp}/" "$out"
    if [ "$machine" = "$here" ]; then
        if has pkg-config "the package in C was"; then in_c "$out/usr/lib/$triplet" "$out/usr/lib/$triplet/pkgconfig" "$out"; fi
        packages=usr/lib/python3/dist-packages
        try "package: the module or the library is not its own" is "$(module PYTHONPATH="$out/$packages" "$python")" "$out/$packages/smclp.py $out/usr/lib/$triplet/libsmclp.so.$version"
    fi
    if has dpkg "installing the package was"; then by_dpkg; fi
}

contents() {
    {
        wanted "lib/$triplet" | sed 's/ / usr\//'
        printf '755 usr\n755 usr/share/doc\n755 usr/share/doc/smclp\n644 usr/share/doc/smclp/changelog.Debian.gz\n644 usr/share/doc/smclp/copyright\n'
    } | sort >"$at/wanted"
    dpkg-deb --contents "$deb" | awk '{ path = $6; sub(/^\.\//, "", path); sub(/\/$/, "", path) }
        path == "" { next }
        $2 != "root/root" { print "of " $2 ": " path }
        /^l/ { print "link " path " -> " $8; next }
        /^[-d]rwxr-xr-x/ { print "755 " path; next }
        /^-rw-r--r--/ { print "644 " path; next }
        { print $1 " " path }' | sort >"$tmp/got"
    try "package: other files, links, modes or owners than expected" diff "$at/wanted" "$tmp/got"
    try "package: the changelog begins otherwise" is "$(gzip -dc "$out/usr/share/doc/smclp/changelog.Debian.gz" | head -n 1)" "smclp ($version-1) unstable; urgency=medium"
}

control() {
    for field in "Package smclp" "Version $version-1" "Architecture $arch" "Section utils" "Priority optional" "Suggests libsigrokdecode4, pkgconf, python3" "Depends libc6 (>= $(glibc))"; do
        try "package: another ${field%% *}" is "$(dpkg-deb --field "$deb" "${field%% *}")" "${field#* }"
    done
    try "package: no maintainer" [ -n "$(dpkg-deb --field "$deb" Maintainer)" ]
    try "package: no description" [ -n "$(dpkg-deb --field "$deb" Description)" ]
    try "package: Installed-Size is not what the files have" sized "$(dpkg-deb --field "$deb" Installed-Size)"
    try "package: the trigger for ldconfig" is "$(cat "$out/DEBIAN/triggers")" "activate-noawait ldconfig"
    try "package: shlibs" is "$(cat "$out/DEBIAN/shlibs")" "libsmclp ${version%%.*} smclp (>= $version)"
    try "package: md5sums do not hold" summed
    try "package: md5sums leave out a file" is "$(cut -c 35- "$out/DEBIAN/md5sums")" "$(cd "$out" && find usr -type f | sort)"
}
# The newest version of the C library that the package's programs and shared library ask for.
glibc() { find "$out/usr" -type f \( -path '*/bin/*' -o -name '*.so.*' \) -exec nm -D {} + | sed -n 's/.*@GLIBC_\([0-9.]*\)$/\1/p' | sort -uV | tail -n 1; }
# Kilobytes: the files' bytes, and at most one more for each file, folder and link.
sized() { # SIZE
    (cd "$out/usr" && find . -printf '%y %s\n') | awk -v size="$1" '$1 == "f" { bytes += $2 } END { print bytes, NR; exit !(bytes <= size * 1024 && size * 1024 <= bytes + NR * 1024) }'
}
summed() { (cd "$out" && md5sum -c --quiet DEBIAN/md5sums); }

# dpkg puts it into a folder, and takes all of it away, with what Python compiled.
by_dpkg() {
    mkdir -p "$at/system/var/lib/dpkg/updates" "$at/system/var/lib/dpkg/info" "$at/system/var/lib/dpkg/triggers"
    : >"$at/system/var/lib/dpkg/status"
    try "package: dpkg does not install it" in_system --install "$deb"
    try "package: dpkg: other files" is "$(listed "$at/system/usr")" "$(sed -n 's/ usr\// /p' "$at/wanted")"
    python3 -m compileall -q "$at/system/usr" >/dev/null
    try "package: dpkg does not remove it" in_system --purge smclp
    try "package: dpkg leaves something" [ ! -e "$at/system/usr" ]
}
in_system() { PATH=$PATH:/usr/sbin:/sbin dpkg --root="$at/system" --force-not-root --force-script-chrootless --force-architecture --force-depends --force-bad-path "$@"; }
