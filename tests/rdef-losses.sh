# The checks of tests/rdef on reads and writes that fail, and on the file OUT.

# A write or a read that fails.
test_losses() {
    for word in report list decl spell canonical; do
        said='rdef: standard output: No space left on device'
        [ $word != spell ] || said="rdef: *: refused 18: *$newline$said" # of a line of its stored input
        run $word "$root/crates/$word/stdin" >/dev/full
        expect "$word to a full device" 4 /dev/null "$said"
        run $word "$root/crates/$word/stdin" >&-
        expect "$word to a closed output" 4 /dev/null 'rdef: standard output is closed'
        try $word - <&-
        expect "$word of a closed input" 4 /dev/null 'rdef: standard input is closed'
        try $word - <"$dir"
        expect "$word of a folder as input" 4 /dev/null 'rdef: standard input: Is a directory'
    done
    run report "$dir/version" >/dev/full
    expect 'a refused chunk to a full device' 4 /dev/null 'rdef: standard output: No space left on device*'
    run report "$dir/large" >/dev/full
    expect 'a large report to a full device' 4 /dev/null 'rdef: standard output: No space left on device'
    before=$shell
    shell="timeout 10 ${shell:-env}"
    yes float4 2>/dev/null | (
        run spell - >/dev/full
        exit "$got"
    )
    got=$?
    shell=$before
    expect 'an endless input to a full device' 4 /dev/null 'rdef: standard output: No space left on device'
    run report "$chunk" 1</dev/null
    expect 'an output that is open for reading alone' 4 /dev/null 'rdef: standard output: Bad file descriptor'
    run help >/dev/full
    expect 'help to a full device' 4 /dev/null '*rdef: standard output: *'
    run help >&-
    expect 'help to a closed output' 4 /dev/null 'rdef: standard output is closed'
    try report "$chunk" <&-
    expect 'a file, with standard input closed' 0 "$dir/report" ''

    # Nothing can be said on a closed standard error, but the status and the output are right.
    # shellcheck disable=SC2086 # words
    $shell "$rdef" report "$dir/version" 2>&- >"$dir/stdout"
    got=$?
    : >"$dir/stderr"
    expect 'a refused chunk, with standard error closed' 3 "$dir/refused-3" ''
    # shellcheck disable=SC2086 # words
    $shell "$rdef" report - <&- 2>&- >&-
    holds 'all three closed' [ $? -eq 4 ]

    # A limit on the size of files: by error where its signal is ignored, else by that signal.
    rm -f "$dir/part"
    (
        trap '' XFSZ
        ulimit -f 8
        run report "$dir/large" >"$dir/part"
        exit "$got"
    )
    got=$?
    expect 'a limit on the size of files' 4 /dev/null 'rdef: standard output: File too large'
    holds 'a limit on the size of files leaves a prefix' is_prefix "$dir/part" "$dir/large-report"
    (
        ulimit -f 8
        run canonical "$dir/large" "$dir/part"
        exit "$got"
    )
    got=$?
    expect 'a limit on the size of files, by its signal' 4 /dev/null "rdef: $dir/part: *"
    holds 'a limit leaves OUT as it was' is_prefix "$dir/part" "$dir/large-report"
}

# Runs a command where "$dir/disk" is a file system of 16 kB with one page left and a file `out`; what is on it then stays in "$dir/after".
on_small_disk() { # COMMAND...
    rm -rf "$dir/after"
    mkdir -p "$dir/disk" "$dir/after"
    # shellcheck disable=SC2016,SC2086 # for the inner shell; words
    $unshare sh -c '
        mount -t tmpfs -o size=16k none "$0/disk" || exit 99
        cp "$0/old" "$0/disk/out"
        dd if=/dev/zero of="$0/disk/fill" bs=4096 count="$1" 2>/dev/null
        shift
        "$@"
        status=$?
        rm "$0/disk/fill"
        cp -R "$0/disk/." "$0/after"
        exit $status' "$dir" "$@"
}

test_small_disk() {
    unshare='unshare -m'
    on_small_disk 1 true 2>/dev/null || unshare='unshare -rm'
    on_small_disk 1 true 2>/dev/null || {
        skip 'a small full file system (neither root nor a user may mount one here)'
        return
    }
    # shellcheck disable=SC2016,SC2086 # for the inner shell; words
    on_small_disk 2 sh -c 'exec "$@" >"$0"' "$dir/disk/report" ${shell:-env} "$rdef" report "$dir/large" 2>"$dir/stderr"
    got=$?
    : >"$dir/stdout"
    expect 'a large report on a full disk' 4 /dev/null 'rdef: standard output: No space left on device'
    holds 'a full disk leaves a prefix' is_prefix "$dir/after/report" "$dir/large-report"
    for pages in 2 3; do
        # shellcheck disable=SC2086 # words
        on_small_disk $pages ${shell:-env} "$rdef" canonical "$dir/large" "$dir/disk/out" 2>"$dir/stderr"
        got=$?
        expect 'OUT on a full disk' 4 /dev/null "rdef: $dir/disk/out: No space left on device"
        holds 'OUT on a full disk is as it was' cmp -s "$dir/old" "$dir/after/out"
        holds 'OUT on a full disk leaves nothing else' has_names "$dir/after" ./out
    done
}

# Pipes without a reader, and pipes that do not wait.
test_pipes() {
    rm -f "$dir/pipe"
    mkfifo "$dir/pipe"
    exec 5<>"$dir/pipe" 6>"$dir/pipe" 5<&-
    run report "$chunk" >&6
    expect 'a pipe without a reader' 4 /dev/null 'rdef: standard output*'
    trap '' PIPE
    run report "$chunk" >&6
    trap - PIPE
    expect 'a pipe without a reader, SIGPIPE ignored' 4 /dev/null 'rdef: standard output: Broken pipe'
    exec 6>&-

    # `dd` leaves the pipe that it was given so that it does not wait.
    exec 5<>"$dir/pipe" 6>"$dir/pipe"
    if dd oflag=nonblock count=0 if=/dev/null >&6 2>/dev/null && dd iflag=nonblock count=0 of=/dev/null <&5 2>/dev/null; then
        try report - <&5
        expect 'an input that does not wait' 4 /dev/null 'rdef: standard input: Resource temporarily unavailable'
        run report "$dir/large" >&6
        expect 'an output that does not wait' 4 /dev/null 'rdef: standard output: Resource temporarily unavailable'
        dd bs=1048576 count=1 <&5 >"$dir/part" 2>/dev/null
        holds 'an output that does not wait has a prefix' is_prefix "$dir/part" "$dir/large-report"
    else
        skip 'pipes that do not wait (dd does not know nonblock)'
    fi
    exec 5<&- 6>&-
}

# canonical FILE OUT: the whole form or no change.
test_out() {
    rm -rf "$dir/out"
    mkdir -p "$dir/out/a folder"
    (
        umask 022
        try canonical "$chunk" "$dir/out/new"
        exit "$got"
    )
    got=$?
    expect 'OUT, new' 0 /dev/null ''
    holds 'OUT has the canonical form' cmp -s "$dir/out/new" "$dir/canonical"
    holds 'OUT has the mode of the umask' has_mode "$dir/out/new" 644
    (
        umask 077
        try canonical - "$dir/out/private" <"$chunk"
        exit "$got"
    )
    holds 'OUT of standard input' cmp -s "$dir/out/private" "$dir/canonical"
    holds 'OUT has the mode of a narrow umask' has_mode "$dir/out/private" 600
    cp "$dir/old" "$dir/out/old"
    chmod 640 "$dir/out/old"
    ln "$dir/out/old" "$dir/out/other"
    try canonical "$chunk" "$dir/out/old"
    expect 'OUT, replaced' 0 /dev/null ''
    holds 'OUT, replaced, has the form' cmp -s "$dir/out/old" "$dir/canonical"
    holds 'OUT is replaced, not written over' cmp -s "$dir/out/other" "$dir/old"
    holds 'OUT, replaced, keeps its mode' has_mode "$dir/out/old" 640
    if chown 65534 "$dir/out/old" 2>/dev/null; then
        try canonical "$chunk" "$dir/out/old"
        holds 'OUT, replaced, keeps its owner' [ "$(stat -c %u "$dir/out/old")" = 65534 ]
    else
        skip 'the owner of OUT (root alone may give files away)'
    fi
    ln -s old "$dir/out/link"
    cp "$dir/old" "$dir/out/old"
    try canonical "$chunk" "$dir/out/link"
    holds 'OUT stays a link' [ -h "$dir/out/link" ]
    holds 'what the link names is replaced' cmp -s "$dir/out/old" "$dir/canonical"
    ln -s named "$dir/out/dangling"
    try canonical "$chunk" "$dir/out/dangling"
    holds 'what a link names is made' cmp -s "$dir/out/named" "$dir/canonical"
    cp "$chunk" "$dir/out/same"
    try canonical "$dir/out/same" "$dir/out/same"
    holds 'FILE and OUT the same' cmp -s "$dir/out/same" "$dir/canonical"
    try canonical "$chunk" -
    expect 'OUT -' 0 "$dir/canonical" ''
    here=$PWD
    cd "$dir/out/a folder" || exit 1
    try canonical "$chunk" '-a form'
    cd "$here" || exit 1
    holds 'OUT in this folder' cmp -s "$dir/out/a folder/-a form" "$dir/canonical"
    run canonical "$chunk" "$dir/out/old" >&-
    expect 'OUT, with standard output closed' 0 /dev/null ''

    # No device of the machine's: a fault in bin/rdef would replace it.
    mkfifo "$dir/out/pipe"
    for word in pipe 'a folder' none/; do
        try canonical "$chunk" "$dir/out/$word"
        expect "OUT $word" 4 /dev/null "rdef: $dir/out/$word: no*"
    done
    holds 'OUT stays a pipe' [ -p "$dir/out/pipe" ]
    try canonical "$chunk" "$dir/out/none/form"
    expect 'OUT in no folder' 4 /dev/null "rdef: $dir/out/none/form: no such folder"
    cp "$dir/old" "$dir/out/old"
    for word in version container; do
        try canonical "$dir/$word" "$dir/out/old"
        expect 'OUT of a refused chunk' 3 /dev/null "rdef: $dir/$word: refused 3: *"
        try canonical "$dir/$word" "$dir/out/refused"
        expect 'a new OUT of a refused chunk' 3 /dev/null "rdef: $dir/$word: refused 3: *"
    done
    try canonical - "$dir/out/old" <"$dir"
    expect 'OUT of a folder as input' 4 /dev/null 'rdef: standard input: Is a directory'
    try canonical "$dir/nonesuch" "$dir/out/old"
    expect 'OUT of a missing file' 1 /dev/null "rdef: $dir/nonesuch: no such file"
    holds 'OUT is then as it was' cmp -s "$dir/old" "$dir/out/old"
    holds 'nothing is left' has_names "$dir/out" './a folder./a folder/-a form./dangling./link./named./new./old./other./pipe./private./same'
}

# A signal during `canonical - OUT`, sent to the script and the program.
test_signals() {
    command -v timeout >/dev/null || {
        skip 'signals (there is no timeout)'
        return
    }
    rm -rf "$dir/out" "$dir/pipe"
    mkdir "$dir/out"
    mkfifo "$dir/pipe"
    cp "$dir/old" "$dir/out/old"
    exec 5<>"$dir/pipe"
    for pair in INT:130 TERM:143 HUP:129; do
        signal=${pair%:*}
        rm -f "$dir/id"
        (
            i=0
            while [ $i -lt 100 ] && { [ ! -s "$dir/id" ] || [ -z "$(find "$dir/out" -name '.rdef.*')" ]; }; do sleep 0.05 && i=$((i + 1)); done
            # To the group that `timeout` leads, as a terminal does. More than once: a signal that comes while the shell starts the program
            # does not reach the program.
            while kill -s "$signal" -- "-$(cat "$dir/id")" 2>/dev/null; do sleep 0.2; done
        ) &
        (
            # shellcheck disable=SC2016,SC2086 # for the inner shell; words
            sh -c 'echo $$ >"$0/id" && exec timeout 10 "$@"' "$dir" ${shell:-env} "$rdef" canonical - "$dir/out/old" <&5
            exit $?
        ) 2>/dev/null
        got=$?
        wait
        holds "SIG$signal ends it" [ $got -eq "${pair#*:}" ]
        holds "SIG$signal leaves OUT as it was" cmp -s "$dir/old" "$dir/out/old"
        holds "SIG$signal leaves nothing else" has_names "$dir/out" ./old
    done
    exec 5<&-
}
