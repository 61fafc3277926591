# The inputs of tests/rdef, in "$dir": chunks that are refused, a container, a chunk with a large report; and what is printed of them.

# A chunk of N bytes, all zero but byte 17, which is the major version.
zeros() { # N MAJOR
    head -c 17 /dev/zero
    # shellcheck disable=SC2059 # the byte as an octal escape
    printf "\\$2"
    head -c $(($1 - 18)) /dev/zero
}

make_inputs() {
    chunk=$root/samples/surtitle.5.rdef
    "$root/crates/report/out/report" <"$chunk" >"$dir/report"
    "$root/crates/canonical/out/canonical" <"$chunk" >"$dir/canonical"

    echo old >"$dir/old"
    head -c 27 /dev/zero >"$dir/short"
    zeros 28 0 >"$dir/version"
    printf 'refused\t1\n' >"$dir/refused-1"
    printf 'refused\t3\n' >"$dir/refused-3"
    { printf DXBC && head -c 28 /dev/zero; } >"$dir/container"
    printf 'float4\nhalf4\nuint3\nhalf3\n' >"$dir/spellings"
    printf '1\t3\t1\t4\t0\nrefused\t18\n1\t19\t1\t3\t0\nrefused\t18\n' >"$dir/spelled"

    # Major 4, 256 bindings, all with one name of 8,000 bytes at 8,220; the creator is the empty text at that name's end.
    {
        printf '\000\000\000\000\000\000\000\000\000\001\000\000\034\000\000\000\000\004\000\000\000\000\000\000\134\077\000\000'
        i=0
        while [ $i -lt 256 ]; do
            printf '\034\040\000\000\000\000\000\000\000\000\000\000\000\000\000\000\000\000\000\000\000\000\000\000\000\000\000\000\000\000\000\000'
            i=$((i + 1))
        done
        head -c 8000 /dev/zero | tr '\000' a
        printf '\000'
    } >"$dir/large"
    "$root/crates/report/out/report" <"$dir/large" >"$dir/large-report"
    [ "$(wc -c <"$dir/large-report")" -gt 4000000 ] || echo 'tests/rdef: the large report is not large' >&2
}
