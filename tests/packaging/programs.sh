# The installed programs, their manual pages and docs/PROGRAMS.md. Read by run.
# shellcheck shell=sh

programs() {
    # by their names on the path, as this machine runs them
    if [ "$machine" = "$here" ]; then ln -s "$own/bin" "$at/bin"; else emulated; fi
    for program in clplist clpexplain clpreply; do
        try "$program: its text of crates/$program/stdin is another" text_of $program
        try "$program --version" is "$("$at/bin/$program" --version 2>&1)" "$program $version"
        try "$program --help does not name every option" helps $program
        try "$program: another argument" is "$("$at/bin/$program" --other <"$capture" 2>&1)" "$program: it takes --help or --version, or no argument and a $(input_of $program) on standard input"
    done
}
# The emulator runs programs for another machine, with the C library that its C compiler has for them.
emulated() {
    mkdir "$at/bin"
    for program in clplist clpexplain clpreply; do
        printf '#!/bin/sh\nexec qemu-%s -L "%s" "%s/bin/%s" "$@"\n' "$machine" "/usr/$machine-linux-gnu" "$own" $program >"$at/bin/$program"
        chmod +x "$at/bin/$program"
    done
}
text_of() { "$at/bin/$1" <"crates/$1/stdin" | cmp - "crates/$1/stdout"; } # PROGRAM
input_of() { case $1 in clpreply) echo reply ;; *) echo capture ;; esac; } # PROGRAM
helps() { "$at/bin/$1" --help </dev/null | head -n 1 | grep "^usage: $1 .*--help.*--version"; } # PROGRAM

# A page's text without roff's own signs for -, `, ', ^ and \, and without its fonts.
plain() { sed 's/\\-/-/g; s/\\(ga/`/g; s/\\(aq/'"'"'/g; s/\\(ha/^/g; s/\\f[BIR]//g; s/\\e/\\/g' "$1"; } # PAGE
pages() {
    groff=
    man=
    if has groff "whether it warns of the pages was"; then groff=yes; fi
    if has man "whether it shows the pages was"; then man=yes; fi
    for page in clplist clpexplain clpreply; do
        file=$own/share/man/man1/$page.1.gz
        gzip -dc "$file" >"$at/$page.1"
        try "man $page: another version in it" is "$(sed -n 's/^\.TH .*"smclp \(.*\)" "User Commands"$/\1/p' "$at/$page.1")" "$version"
        if [ -n "$groff" ]; then try "man $page: groff warns" is "$(groff -man -Tutf8 -ww "$at/$page.1" 2>&1 >/dev/null)" ""; fi
        if [ -n "$man" ]; then
            try "man $page: man warns" is "$(LC_ALL=C.UTF-8 MANWIDTH=80 man --warnings -E UTF-8 -l "$file" 2>&1 >"$tmp/shown")" ""
            try "man $page: man shows no name" grep -q "$page - " "$tmp/shown"
        fi
        if command -v mandoc >/dev/null; then try "man $page: mandoc warns" mandoc -T lint -W warning "$at/$page.1"; fi
        for heading in NAME SYNOPSIS DESCRIPTION OPTIONS "EXIT STATUS" DIAGNOSTICS EXAMPLES "SEE ALSO"; do
            try "man $page: no $heading" grep -qx ".SH $heading" "$at/$page.1"
        done
        plain "$at/$page.1" >"$tmp/plain"
        for option in --help --version; do
            try "man $page: nothing of $option" grep -qxF ".B $option" "$tmp/plain"
        done
        try "man $page: not what is said of another argument" grep -qxF ".B $("$at/bin/$page" --other 2>&1)" "$tmp/plain"
        # the first example is a command and what it prints
        awk '/^\.EX$/ { within = 1; next } /^\.EE$/ { exit } within' "$tmp/plain" >"$tmp/example"
        sed -n '1s/^\$ //p' "$tmp/example" >"$tmp/typed"
        try "man $page: its example prints something else" is "$(PATH=$at/bin:$PATH sh "$tmp/typed" 2>&1)" "$(sed 1d "$tmp/example")"
    done
}

# A page's table of refusals is the one in README.md below a sentence, with so many rows.
refusals_of() { # PAGE SENTENCE ROWS
    plain "$at/$1.1" >"$tmp/plain"
    awk -v sentence="$2" 'index($0, sentence) == 1 { within = 1; next }
        within && /^\| [0-9]+ \| .* \|$/ { row = $0; sub(/^\| /, "", row); sub(/ \|$/, "", row); sub(/ \| /, " ", row); print row; seen = 1; next }
        within && seen { exit }' README.md >"$tmp/rows"
    awk '/^\.SS Refusals/ { within = 1; next }
        within && /^\.(SS|SH|PP)/ { exit }
        within && /^\.B [0-9]+$/ { number = $2; getline; print number " " $0 }' "$tmp/plain" >"$tmp/page-rows"
    try "README.md: no table of $3 refusals below: $2" is "$(wc -l <"$tmp/rows" | tr -d ' ')" "$3"
    try "man $1: not README.md's table of refusals" diff "$tmp/rows" "$tmp/page-rows"
}

# The numbers in the pages: refusals by README.md's tables, verbs and options by the header.
numbers() {
    refusals_of clpreply "Where a reply is refused, look at the line that starts at the place" 5
    refusals_of clplist "Where a line is refused, look at the byte at the place" 20
    for kind in VERB OPTION; do
        row=$(sed -n "s/^ *CLP_${kind}_\([A-Z]*\) = \([0-9]*\).*/\2 \1/p" include/clp.h | grep -v BYTES | sort -n | tr 'A-Z\n' 'a-z,' | sed 's/,$//; s/,/, /g')
        try "man clplist: not the header's numbers: $row" grep -qxF "$row." "$tmp/plain"
    done
}

# Each block of sh in docs/PROGRAMS.md prints the block after it.
examples() {
    mkdir "$at/examples"
    awk -v into="$at/examples" '
        /^```/ && within { within = 0; close(file); after = kind; next }
        /^```sh$/ { number++; kind = "sh"; within = 1; file = into "/" number ".sh"; printf "" >file; next }
        /^```$/ { kind = after == "sh" ? "out" : "alone"; within = 1; file = into "/" number "." kind; printf "" >file; next }
        within { print >file; next }
        /./ { after = "" }' docs/PROGRAMS.md
    count=0
    for block in "$at"/examples/*.sh; do
        output=${block%.sh}.out
        try "docs/PROGRAMS.md: no output after: $(cat "$block")" [ -f "$output" ] || continue
        try "docs/PROGRAMS.md: something else is printed by: $(cat "$block")" is "$(PATH=$at/bin:$PATH sh "$block" 2>&1)" "$(cat "$output")"
        count=$((count + 1))
    done
    try "docs/PROGRAMS.md: other than 8 examples" is $count 8
}
