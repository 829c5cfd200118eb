# The installed Python module and the decoder, which find the library by themselves. Read by run.
# shellcheck shell=sh

# Which file the module or the decoder is that a Python takes, and which the library, in an environment of nothing else.
module() { env -i "$@" tests/packaging/module.py "$capture" crates/clplist/stdout "$version" 2>&1 | sed 's/python3\.[0-9]*/python3.N/'; } # VARIABLE.. PYTHON
decoder() { env -i "$@" tests/packaging/decoder.py "$capture" 2>&1; } # VARIABLE.. PYTHON

in_python() { # PYTHON NUMBER
    file=libsmclp.so.$version
    packages=lib/python3/dist-packages
    try "$1: the module or the library is not the tree's" is "$(module PYTHONPATH="$own/$packages" "$1")" "$own/$packages/smclp.py $own/lib/$file"
    decoders=share/libsigrokdecode/decoders
    try "$1: the decoder or the library is not the tree's" is "$(decoder PYTHONPATH="tests/sigrok/stand-in:$own/$decoders" "$1")" "$own/$decoders/smclp/__init__.py $own/lib/$file"
    # a home's .local, and a virtual environment: no variable names the module
    home=$at/home-$2
    mkdir "$home"
    if "$1" -c 'import site, sys; sys.exit(not site.ENABLE_USER_SITE)'; then
        try "$1: installing into ~/.local" env HOME="$home" PYTHON="$1" PREFIX="$home/.local" PATH="$tmp/no-kit:$PATH" packaging/install
        try "$1: not found in ~/.local" is "$(module HOME="$home" "$1")" "$home/.local/lib/python3.N/site-packages/smclp.py $home/.local/lib/$file"
    else
        echo "packaging: $1 looks in nobody's ~/.local, so that was not tried"
    fi
    venv=$at/venv-$2
    if "$1" -m venv --without-pip "$venv" >/dev/null 2>&1; then
        try "$1: installing into a virtual environment" env PYTHON="$venv/bin/python3" PREFIX="$venv" PATH="$tmp/no-kit:$PATH" packaging/install
        try "$1: not found in a virtual environment" is "$(module "$venv/bin/python3")" "$venv/lib/python3.N/site-packages/smclp.py $venv/lib/$file"
    else
        echo "packaging: $1 makes no virtual environment, so that was not tried"
    fi
    # the system's own folders: one that this Python looks in, where it looks in any below that PREFIX
    for prefix in /usr /usr/local; do
        try "$1: installing with PREFIX=$prefix" env DESTDIR="$at/system-$2" PREFIX=$prefix PYTHON="$1" PATH="$tmp/no-kit:$PATH" packaging/install
        try "$1: not in a folder that it looks in, with PREFIX=$prefix" "$1" -c 'import os, site, sys
below = [folder for folder in site.getsitepackages() if folder.startswith(sys.argv[2] + "/lib/")] or [sys.argv[2] + "/lib/python3/dist-packages"]
assert [folder for folder in below if os.path.isfile(sys.argv[1] + folder + "/smclp.py")] == below[:1], below' "$at/system-$2" $prefix
    done
}

in_sigrok() {
    try "sigrok does not find the decoder" is "$(XDG_DATA_DIRS=$own/share sigrok-cli -P smclp --show 2>&1 | head -n 1)" "ID: smclp"
}
