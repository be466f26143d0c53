# Sourced: the archive for C, made again where it is missing or a source is newer.
archive=crates/tamsklor_c/out/libtamsklor_c.a

archive_stands() {
    [ -f "$archive" ] && [ -z "$(find crates/*/src crates/*/specs crates/*/proofs crates.txt -newer "$archive")" ]
}

# Proves what is not proved yet, and builds the archive for every x86-64 processor.
build_archive() {
    (cd crates/tamsklor_c && rt lib --cpu x86-64)
}

make_archive() { # LOG
    if archive_stands; then return; fi
    build_archive >"$1" 2>&1 || { cat "$1"; fail "rt lib in crates/tamsklor_c"; }
}
