# How packaging/install goes about it: what it has built, when it calls ldconfig, what it refuses. Read by run.
# shellcheck shell=sh

# A copy of what packaging/install needs, with nothing built, and stand-ins that note what is asked of them and hand over what there is.
building() {
    copy=$at/copy
    mkdir -p "$copy/packaging" "$copy/bindings" "$at/kit" "$at/bare"
    cp -R VERSION include "$copy/"
    cp -R packaging/install packaging/man "$copy/packaging/"
    cp -RP bindings/python bindings/sigrok "$copy/bindings/"
    for part in library programs; do
        cat >"$copy/packaging/$part" <<PART
#!/bin/sh
echo "$part \$*" >>"$at/built"
mkdir -p target/$part && cp -RP "$root/target/$part/\$1" target/$part/
PART
        chmod +x "$copy/packaging/$part"
    done
    cp "$tmp/no-kit/rt" "$at/kit/rt"
    # the usual commands, and no kit
    for tool in cat chmod cp dirname gzip id install ln mkdir mktemp python3 rm rmdir sed sh uname; do ln -s "$(command -v $tool)" "$at/bare/$tool"; done
    try "nothing built and no kit: not refused" not install_copied "$at/bare"
    try "nothing built and no kit: not said" grep -q 'no command rt was found' "$at/why"
    try "nothing built and no kit: something was installed" [ ! -e "$at/copied" ]
    try "what is missing is not built" install_copied "$at/kit:$at/bare"
    try "other things are built than what is missing" is "$(cat "$at/built")" "library $machine
programs $machine"
    try "built: other files, links or modes than expected" holds "$at/copied" lib
    try "once all is built a kit is needed" install_copied "$at/bare"
    rm -f "$at/built"
    rm "$copy/target/library/$machine/libsmclp.so.$version"
    try "a library of another version is taken" install_copied "$at/kit:$at/bare"
    try "a library of another version: other things are built" is "$(cat "$at/built")" "library $machine"
    for program in clplist clpexplain clpreply; do
        rm -f "$at/built" "$copy/target/programs/$machine/$program"
        try "without $program: not installed" install_copied "$at/kit:$at/bare"
        try "without $program: other things are built" is "$(cat "$at/built" 2>/dev/null)" "programs $machine"
    done
}
install_copied() { (MACHINE=$machine PREFIX=$at/copied PATH=$1 "$copy/packaging/install") >"$at/why" 2>&1 || { cat "$at/why"; return 1; }; } # PATH

# The loader's cache, with stand-ins for the commands ldconfig, which looks in one folder, and id.
loader() {
    mkdir "$at/stand-in"
    printf '#!/bin/sh\nif [ $# = 0 ]; then echo called >>"%s/cached"; else echo "%s/known/lib: (from a file:1)"; fi\n' "$at" "$at" >"$at/stand-in/ldconfig"
    # shellcheck disable=SC2016
    printf '#!/bin/sh\necho $USER_NUMBER\n' >"$at/stand-in/id"
    chmod +x "$at/stand-in/ldconfig" "$at/stand-in/id"
    try "a user: it is not said that ldconfig is wanted" says "run ldconfig as root" 1000 "$at/known" ''
    try "root, in a folder that the loader does not know: not said" says "the loader does not look in $at/unknown/lib" 0 "$at/unknown" ''
    try "root, below DESTDIR: not installed" says "smclp $version for" 0 "$at/known" "$at/below"
    try "ldconfig was called without need" [ ! -e "$at/cached" ]
    try "root, in a folder that the loader knows: not installed" says "smclp $version for" 0 "$at/known" ''
    try "root, in a folder that the loader knows: ldconfig was not called once" is "$(cat "$at/cached" 2>/dev/null)" called
}
says() { PATH=$at/stand-in:$tmp/no-kit:$PATH USER_NUMBER=$2 PREFIX=$3 DESTDIR=$4 packaging/install | grep -F "$1"; } # TEXT USER PREFIX DESTDIR

refusals() {
    try "a PREFIX that does not begin with / is taken" not install_with PREFIX=some/where
    try "a LIBDIR that does not begin with / is taken" not install_with LIBDIR=lib
    try "a machine without a library is taken" not install_with MACHINE=riscv64
    try "an argument that is none is taken" not installs --prefix="$at/none"
    try "a refusal left something" [ ! -e "$at/none" ]
    try "a DESTDIR beside the caller is not taken" install_beside
    try "a DESTDIR beside the caller: other files, links or modes" holds "$at/caller/a tree/usr" lib
}
install_with() { env DESTDIR="$at/none" PATH="$tmp/no-kit:$PATH" "$1" packaging/install; } # VARIABLE
install_beside() { mkdir "$at/caller" && (cd "$at/caller" && DESTDIR="a tree" PREFIX=/usr PATH=$tmp/no-kit:$PATH "$root/packaging/install"); }
