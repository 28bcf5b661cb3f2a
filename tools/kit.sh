# Sourced by scripts: proves and builds through `rt`, and builds C over the proved archive. Compiler and linker are the
# kit's own, found through `rt`; what is built is for x86-64 Linux, and runs by itself. Paths are seen from the top
# folder. A program of the engine is built to crates/NAME/out/NAME.
command -v rt >/dev/null || { echo 'The Rattle kit is missing: no command rt is found.' >&2; exit 1; }
kit=$(dirname "$(rt doc)")
kit_target=x86_64-unknown-linux-gnu
kit_log=$PWD/target/rt.log
archive=crates/meadcinder/out/libmeadcinder.a

# The crate whose proof was begun last.
kit_crate_at_work() {
    begun=$(sed -n 's/^rt: chose --jobs [0-9]* for //p' "$kit_log" | tail -n 1)
    echo "${begun:-the first crate}"
}

kit_tell_progress() {
    seconds=0
    while sleep 10 >/dev/null 2>&1; do
        seconds=$((seconds + 10))
        echo "    $seconds s: at $(kit_crate_at_work)"
    done
}

# kit_prove NAME WORD...: rt with these words, in the folder of the crate. It tells its progress on standard error, and
# what rt said only if that failed. Libraries that changed are proved first.
kit_prove() {
    mkdir -p target
    : >"$kit_log"
    kit_tell_progress >&2 &
    telling=$!
    trap 'kill $telling' EXIT
    status=0
    (cd "crates/$1" && shift && rt "$@" </dev/null >>"$kit_log" 2>&1) || status=$?
    kill $telling
    trap - EXIT
    [ $status -eq 0 ] || cat "$kit_log" >&2
    return $status
}

# kit_programs NAME...: rt runs each too, once, on no input and in a folder without files.
kit_programs() {
    for name; do kit_prove "$name" run || return; done
}

# Proves and writes the archive of the C forms, which may rest on no contract of a C function. It is kept while nothing
# is newer than the start of that proof.
kit_archive() {
    begun=target/archive
    [ -f $archive ] && [ -f $begun ] &&
        [ -z "$(find crates/*/src crates/*/specs crates/*/proofs crates.txt "$kit/KIT-ID" -newer $begun)" ] && return
    echo 'Proving the engine and building its archive: minutes the first time, seconds from then on.' >&2
    mkdir -p target
    touch $begun.now
    kit_prove meadcinder lib
    ! grep '^logic=.* axioms=' "$kit_log" >&2 || return 1
    mv $begun.now $begun
}

# kit_build SOURCE PROGRAM: over the archive
kit_build() {
    mkdir -p "$(dirname "$2")"
    "$kit/toolchain/bin/clang" --target=$kit_target -ffreestanding -fPIE -O2 -Wall -Wextra -Werror -Iinclude \
        -c "$1" -o "$2.o"
    "$kit/bin/rattle-link" --target $kit_target --toolchain "$kit/toolchain" -o "$2" "$2.o" $archive 2>"$2.log" ||
        { cat "$2.log" >&2; return 1; }
}
