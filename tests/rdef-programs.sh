# The checks of tests/rdef on arguments, places and refusals.

# Arguments, and files that cannot be opened.
test_use() {
    try
    expect 'no arguments' 2 /dev/null 'usage: bin/rdef *'
    for word in help --help -h; do
        run $word >"$dir/usage"
        expect "$word" 0 /dev/null ''
        holds "$word prints the use" grep -q '^usage: bin/rdef ' "$dir/usage"
    done
    for word in report list decl spell canonical build help; do
        holds "the use has $word" grep -q "^  $word " "$dir/usage"
    done
    for word in 0 1 2 3 4; do
        holds "the use has status $word" grep -q "^  $word  " "$dir/usage"
    done
    try nonesuch "$chunk"
    expect 'an unknown command' 2 /dev/null "rdef: nonesuch is not a command${newline}bin/rdef --help shows the use"
    for word in report list decl spell canonical; do
        try $word
        expect "$word without a file" 2 /dev/null "rdef: $word needs a FILE${newline}bin/rdef --help shows the use"
    done
    for word in report list decl spell; do
        try $word "$chunk" "$dir/x"
        expect "$word with two files" 2 /dev/null "rdef: $word has too many arguments${newline}bin/rdef --help shows the use"
    done
    try canonical "$chunk" "$dir/x" "$dir/y"
    expect 'canonical with three files' 2 /dev/null 'rdef: canonical has too many *'
    try build report
    expect 'build with a name' 2 /dev/null 'rdef: build has too many *'
    try report ''
    expect 'an empty name' 2 /dev/null 'rdef: an argument is empty*'
    try report "$dir/nonesuch"
    expect 'a missing file' 1 /dev/null "rdef: $dir/nonesuch: no such file"
    try report "$dir"
    expect 'a folder' 1 /dev/null "rdef: $dir: is a directory"
}

# Files that may not be read or written. Root may do all, so there the script is run as nobody.
test_rights() {
    rm -rf "$dir/rights"
    mkdir -p "$dir/rights/shut"
    cp "$chunk" "$dir/rights/unreadable"
    cp "$dir/old" "$dir/rights/out"
    chmod 000 "$dir/rights/unreadable"
    chmod 444 "$dir/rights/out"
    chmod 555 "$dir/rights/shut"
    chmod 777 "$dir/rights"
    before=$shell
    [ ! -r "$dir/rights/unreadable" ] || shell="setpriv --reuid=65534 --regid=65534 --clear-groups ${shell:-sh}"
    # shellcheck disable=SC2086 # words
    if ${shell:-sh} -c '[ -r "$1" ] && [ ! -r "$2" ]' sh "$rdef" "$dir/rights/unreadable" 2>/dev/null; then
        try report "$dir/rights/unreadable"
        expect 'an unreadable file' 1 /dev/null "rdef: $dir/rights/unreadable: cannot be read"
        try canonical "$chunk" "$dir/rights/out"
        expect 'OUT that may not be written' 4 /dev/null "rdef: $dir/rights/out: cannot be written"
        holds 'OUT that may not be written is as it was' cmp -s "$dir/old" "$dir/rights/out"
        try canonical "$chunk" "$dir/rights/shut/out"
        expect 'a folder that may not be written' 4 /dev/null "rdef: $dir/rights/shut/out: cannot be written: *"
    else
        skip 'files that may not be read or written (root may do all, and setpriv is missing or refused)'
    fi
    shell=$before
}

# Standard input, names of every kind, other folders, links.
test_places() {
    for word in report list decl spell canonical; do
        status=0 pattern=''
        [ $word != spell ] || status=3 pattern='rdef: *: refused 18: *'
        try $word "$root/crates/$word/stdin"
        expect "$word" $status "$root/crates/$word/stdout" "$pattern"
        try $word - <"$root/crates/$word/stdin"
        expect "$word of standard input" $status "$root/crates/$word/stdout" "$pattern"
    done
    rm -f "$dir/pipe"
    mkfifo "$dir/pipe"
    cat "$chunk" >"$dir/pipe" &
    try report "$dir/pipe"
    expect 'a pipe' 0 "$dir/report" ''
    mkdir -p "$dir/a folder/bin"
    for word in 'a chunk' '-x' '*' 'a\nb' '$(x)'; do
        cp "$chunk" "$dir/a folder/$word"
        try report "$dir/a folder/$word"
        expect "the file $word" 0 "$dir/report" ''
        here=$PWD
        cd "$dir/a folder" || exit 1
        try report "$word"
        cd "$here" || exit 1
        expect "the file $word, from its folder" 0 "$dir/report" ''
    done
    cp "$dir/version" "$dir/a folder/refused"
    try report "$dir/a folder/refused"
    expect 'a refused chunk in a folder with a space' 3 "$dir/refused-3" "rdef: $dir/a folder/refused: refused 3: *"

    # A link to it, a link to the link, a relative link; and CDPATH, by which `cd` may print and go elsewhere.
    ln -sf "$rdef" "$dir/a folder/bin/link"
    ln -sf link "$dir/a folder/bin/link-to-link"
    for word in link link-to-link; do
        rdef="$dir/a folder/bin/$word"
        try report "$chunk"
        expect "by a symbolic link ($word)" 0 "$dir/report" ''
    done
    rdef=$root/bin/rdef
    cp "$chunk" "$dir/chunk"
    mkdir -p "$dir/bin"
    for word in / "$dir" "$root" "$root/bin"; do
        here=$PWD
        cd "$word" || exit 1
        try report "$dir/chunk"
        expect "from the folder $word" 0 "$dir/report" ''
        export CDPATH="$dir:/:."
        [ "$word" != "$root" ] || rdef=bin/rdef
        try report "$dir/chunk"
        unset CDPATH
        rdef=$root/bin/rdef
        expect "from the folder $word, with CDPATH" 0 "$dir/report" ''
        cd "$here" || exit 1
    done
}

# Document 01's line stays on standard output, but for canonical; the sentence is said.
test_refusals() {
    for word in report list decl; do
        try $word "$dir/version"
        expect "$word of a refused chunk" 3 "$dir/refused-3" "rdef: $dir/version: refused 3: the major version is neither 4 nor 5"
        try $word - <"$dir/short"
        expect "$word of a refused standard input" 3 "$dir/refused-1" "rdef: standard input: refused 1: the chunk has fewer than 28 bytes"
        try $word "$dir/container"
        expect "$word of a container" 3 "$dir/refused-3" "rdef: $dir/container: refused 3: *${newline}rdef: *DXBC container*"
    done
    try report /dev/null
    expect 'an empty file' 3 "$dir/refused-1" 'rdef: /dev/null: refused 1: *'
    try canonical "$dir/version"
    expect 'canonical of a refused chunk' 3 /dev/null "rdef: $dir/version: refused 3: the major version is neither 4 nor 5"
    try canonical "$dir/container"
    expect 'canonical of a container' 3 /dev/null "rdef: $dir/container: refused 3: *${newline}rdef: *DXBC container*"
    try spell "$dir/spellings"
    expect 'spell with refused lines' 3 "$dir/spelled" "rdef: $dir/spellings: refused 18: the type has no spelling, or the text spells no type"
    try spell /dev/null
    expect 'spell of nothing' 0 /dev/null ''
}
