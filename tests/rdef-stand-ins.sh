# The checks of tests/rdef that need stand-ins for the programs or for rt, in a small repository of its own: "$dir/repo".

# Makes a stand-in for a program, newer than every source.
stand_in() { # NAME COMMANDS
    mkdir -p "$dir/repo/crates/$1/out"
    printf '#!/bin/sh\n%s\n' "$2" >"$dir/repo/crates/$1/out/$1"
    chmod 755 "$dir/repo/crates/$1/out/$1"
}

make_repository() {
    rm -rf "$dir/repo" "$dir/tools"
    mkdir -p "$dir/repo/bin" "$dir/repo/crates/report/src" "$dir/repo/crates/report/specs" "$dir/repo/crates/report/proofs/main" "$dir/tools"
    cp "$root/bin/rdef" "$dir/repo/bin/rdef"
    for source in crates.txt crates/report/src/main.rt crates/report/specs/A.antt crates/report/proofs/main/Answers.antt crates/report/stdout; do
        touch -t 202001010000 "$dir/repo/$source"
    done
    rdef=$dir/repo/bin/rdef
}

# What a program says and how it ends, and the status that comes of it.
test_judging() {
    make_repository
    stand_in report 'cat'
    try report "$chunk"
    expect 'a program that says nothing' 0 "$chunk" ''
    stand_in report 'cat; echo "Error: standard output: Full" >&2; exit 1'
    try report "$chunk"
    expect 'a failed write' 4 "$chunk" 'rdef: standard output: Full'
    stand_in report 'cat; echo "Error: standard input: Gone (os error 7)" >&2; exit 1'
    try report "$chunk"
    expect 'a failed read' 4 "$chunk" "rdef: $chunk: Gone"
    stand_in report 'cat; echo "Error: standard error: Full" >&2; exit 1'
    try report "$chunk"
    expect 'a message that could not be said' 4 "$chunk" 'rdef: Error: standard error: Full'
    stand_in report 'cat; echo "Error: Full" >&2; exit 1'
    try report "$chunk"
    expect 'another error' 1 "$chunk" "rdef: Error: Full${newline}rdef: report failed, with status 1"
    stand_in report 'cat; printf "refused 7: why\nmore of it\n" >&2'
    try report "$chunk"
    expect 'a refusal of two lines' 3 "$chunk" "rdef: $chunk: refused 7: why${newline}rdef: more of it"
    stand_in report 'cat; printf "refused 7: why\nError: standard output: Full\n" >&2; exit 1'
    try report "$chunk"
    expect 'a refusal and a failed write' 4 "$chunk" "rdef: $chunk: refused 7: why${newline}rdef: standard output: Full"
    stand_in report 'cat; echo "not standard output: Full" >&2'
    try report "$chunk"
    expect 'words that are not known' 1 "$chunk" 'rdef: not standard output: Full*'
    stand_in report 'cat; exit 7'
    try report "$chunk"
    expect 'a program that fails' 1 "$chunk" 'rdef: report failed, with status 7'
    stand_in report 'cat; echo "refused 7: why" >&2; exit 7'
    try report "$chunk"
    expect 'a refusal by a program that fails' 1 "$chunk" "rdef: $chunk: refused 7: why${newline}rdef: report failed, with status 7"
    stand_in report 'cat; kill -s KILL $$'
    try report "$chunk"
    expect 'a program that is killed' 1 "$chunk" 'rdef: report failed, with status 137'
    stand_in report 'exit 141' # as after SIGPIPE, which may be ignored here
    try report "$chunk"
    expect 'SIGPIPE' 4 /dev/null 'rdef: standard output was closed before all was written'

    # OUT after a write that failed half way, and after a program that was killed.
    cp "$dir/old" "$dir/repo/out"
    # shellcheck disable=SC2016 # for the stand-in
    for pair in '4:echo "Error: standard output: Full" >&2; exit 1' '1:exit 7' '1:kill -s KILL $$' '3:echo "refused 7: why" >&2'; do
        stand_in canonical "echo half; ${pair#*:}"
        try canonical "$chunk" "$dir/repo/out"
        expect "OUT after: ${pair#*:}" "${pair%%:*}" /dev/null 'rdef: *'
        holds "OUT as it was after: ${pair#*:}" cmp -s "$dir/old" "$dir/repo/out"
    done
    stand_in canonical 'echo half; echo "Error: standard output: Full" >&2; exit 1'
    try canonical "$chunk" "$dir/repo/out"
    expect 'a failed write to OUT' 4 /dev/null "rdef: $dir/repo/out: Full"
    holds 'nothing is left beside OUT' has_names "$dir/repo/crates/canonical" ./out./out/canonical
    holds 'no temporary file is left' [ -z "$(find "$dir/repo" -name '.rdef.*')" ]
}

# A stand-in for rt: it tells its arguments and its folder, and makes a program that copies its input.
stand_in_rt() { # COMMANDS
    cat >"$dir/tools/rt" <<END
#!/bin/sh
name=\${PWD##*/}
echo "\$* in \$name" >>"$dir/calls"
cat
echo 'what the program prints'
{
    echo 'a line of the prover'
    echo 'rt: chose --jobs 2 for text'
    $1
    mkdir -p out
    printf '#!/bin/sh\ncat\n' >out/\$name
    chmod 755 out/\$name
    echo 'rt: running it'
    echo 'refused 1: why'
} >&2
END
    chmod 755 "$dir/tools/rt"
}

calls() { # COUNT
    [ "$(wc -l <"$dir/calls")" -eq "$1" ]
}

test_building() {
    make_repository
    rm -f "$dir/calls"
    path=$PATH
    PATH=$dir/tools:$PATH
    stand_in_rt ''
    try report - <"$chunk"
    expect 'the first use' 0 "$chunk" "rdef: building report*${newline}rt: chose --jobs 2 for text"
    holds 'the first use builds' [ "$(cat "$dir/calls")" = 'run in report' ]
    try report "$chunk"
    expect 'the second use' 0 "$chunk" ''
    holds 'the second use does not build' calls 1
    touch "$dir/repo/crates/report/stdout" "$dir/repo/crates/report/out/A.antt" "$dir/repo/README"
    try report "$chunk"
    holds 'what is no source does not count' calls 1
    count=1
    for source in crates.txt crates/report/src/main.rt crates/report/specs/A.antt crates/report/proofs/main/Answers.antt; do
        touch -t 202101010000 "$dir/repo/crates/report/out/report"
        touch -t 202102010000 "$dir/repo/$source"
        count=$((count + 1))
        try report "$chunk"
        expect "a newer $source" 0 "$chunk" 'rdef: building report*'
        holds "a newer $source builds" calls $count
        try report "$chunk"
        holds "a newer $source builds once" calls $count
        touch -t 202001010000 "$dir/repo/$source"
    done

    rm -f "$dir/calls"
    for word in list decl spell canonical; do
        mkdir -p "$dir/repo/crates/$word"
    done
    try build
    expect 'build' 0 /dev/null "rdef: building report list decl spell canonical*${newline}rdef: built report list decl spell canonical"
    holds 'build builds all' [ "$(tr '\n' ' ' <"$dir/calls")" = 'run in report run in list run in decl run in spell run in canonical ' ]

    rm -rf "$dir"/repo/crates/*/out
    stand_in_rt 'echo "rt: not proved"; exit 1'
    said="*${newline}a line of the prover${newline}*${newline}rt: not proved*${newline}rdef: not built: report"
    try report "$chunk"
    expect 'a build that fails' 1 /dev/null "$said"
    try build
    expect 'build that fails' 1 /dev/null "$said"
    stand_in_rt 'exit 0'
    try report "$chunk"
    expect 'a build without a program' 1 /dev/null "*rdef: rt holds report to be built, but crates/report/out/report is missing*"

    # What rt says is shown while it works: it waits here until that was seen.
    rm -f "$dir/seen"
    stand_in_rt "i=0; while [ ! -e '$dir/seen' ] && [ \$i -lt 100 ]; do sleep 0.1; i=\$((i + 1)); done; [ -e '$dir/seen' ] || exit 1"
    (
        i=0
        while ! grep -q 'rt: chose' "$dir/stderr" && [ $i -lt 100 ]; do sleep 0.1 && i=$((i + 1)); done
        [ $i -eq 100 ] || : >"$dir/seen"
    ) &
    try report "$chunk"
    wait
    expect 'lines shown as they come' 0 "$chunk" '*rt: chose --jobs 2 for text*'

    # Without rt in the path a program that is built runs; one that is not is named.
    rm -rf "$dir/tools"
    mkdir "$dir/tools"
    for tool in sh env dash bash ksh mksh yash busybox readlink find head cat; do
        found=$(command -v $tool) && ln -s "$found" "$dir/tools/$tool"
    done
    PATH=$dir/tools
    try report "$chunk"
    PATH=$path
    expect 'a built program without rt' 0 "$chunk" ''
    PATH=$dir/tools
    try list "$chunk"
    PATH=$path
    expect 'no rt' 1 /dev/null 'rdef: rt, which builds list, is not in the path'

    # A copy outside a repository.
    cp "$root/bin/rdef" "$dir/tools/rdef"
    rdef=$dir/tools/rdef
    try report "$chunk"
    expect 'a copy outside a repository' 1 /dev/null 'rdef: * is not in the folder bin/ of its repository*'
}
