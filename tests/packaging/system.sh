# packaging/install as root and with no variable, in the system's own folders, with its ldconfig. Read by run.
# In a namespace of its own, where /usr/local, /etc and what ldconfig keeps are copies.
# shellcheck shell=sh

system() {
    mkdir -p "$at/local/bin" "$at/local/include" "$at/local/lib" "$at/local/share/man" "$at/etc" "$at/cache"
    cp -R /etc/. "$at/etc" 2>/dev/null
    cat >"$at/enter" <<'ENTER'
set -e
PATH=$2:/usr/bin:/bin:/usr/sbin:/sbin
mount --bind "$1/local" /usr/local
mount --bind "$1/etc" /etc
[ ! -d /var/cache/ldconfig ] || mount --bind "$1/cache" /var/cache/ldconfig
shift 2
"$@"
ENTER
    if ! within [ -d /usr/local/share/man ] 2>/dev/null; then
        echo "packaging: there is no namespace to be had, so the system's own folders were not tried"
        return
    fi
    listed "$at/local" >"$tmp/before"
    try "the system: installing" within packaging/install
    try "the system: no library in /usr/local/lib" [ -f "$at/local/lib/libsmclp.so.$version" ]
    if within sh -c 'command -v pkg-config' >/dev/null; then
        # shellcheck disable=SC2016
        try "the system: compiling" within sh -c 'gcc "$1" $(pkg-config --cflags --libs smclp) -o "$2"' sh "$tmp/list.c" "$at/listing"
        try "the system: the program does not find the library" lists within "$at/listing"
    fi
    looks=$(/usr/bin/python3 -c 'import site
print(*[folder for folder in site.getsitepackages() if folder.startswith("/usr/local/lib/")][:1])' 2>/dev/null)
    if [ -n "$looks" ]; then
        try "the system: Python does not find the module, or the module the library" is "$(within env -i /usr/bin/python3 tests/packaging/module.py "$capture" crates/clplist/stdout "$version" 2>&1)" \
            "$looks/smclp.py /usr/local/lib/libsmclp.so.$version"
    else
        echo "packaging: /usr/bin/python3 looks in no folder of /usr/local, so that was not tried"
    fi
    try "the system: taking away" within packaging/install --uninstall
    try "the system: a file is left" is "$(find "$at/local" ! -type d)" ""
    try "the system: a folder of smclp's own is left" is "$(find "$at/local" -name smclp)" ""
    try "the system: a folder that was there is gone" is "$(listed "$at/local" | comm -13 - "$tmp/before")" ""
}
within() { unshare -rm sh "$at/enter" "$at" "$tmp/no-kit" "$@"; }
