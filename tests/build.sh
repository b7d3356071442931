# Sourced by the scripts beside it and by those of bindings/, in the repository's folder. Sets `kit`, the folder of the toolchain, and `archives`, the
# folder of the libraries that tests link: proved, or where UNPROVED is set compiled from the sources alone, and where it is `bare` without checks of
# their own too (`tests/unproved.py`).

skip() {
    echo "$(basename "$0" .sh): skipped, $1"
    exit 0
}

kit=$(dirname "$(rt doc)")

# Whether the sources are to be proved.
proves() { [ -z "${UNPROVED-}" ]; }

case ${UNPROVED-} in
'') archives=target/staticlib bare='' ;;
bare) archives=target/bare bare=--bare ;;
*) archives=target/unproved bare='' ;;
esac

# The crates of the repository that a crate needs, and those that these need.
reached_by() {
    todo=$1 seen=''
    while [ -n "$todo" ]; do
        next=''
        for crate in $todo; do
            case " $seen " in *" $crate "*) continue ;; esac
            seen="$seen $crate"
            next="$next $(sed -n "s/^$crate\( staticlib\)\{0,1\}:\([^#]*\).*/\2/p" crates.txt)"
        done
        todo=$(echo $next)
    done
    for crate in ${seen# "$1"}; do [ ! -d "crates/$crate" ] || echo "$crate"; done
}

# compile NAME FILE [CRATE...]   writes $archives/libNAME.a of a crate whose root file is this one, with nothing proved. It needs the crates named, or
# those that crates.txt has for it.
compile() {
    python3 tests/unproved.py $bare "$archives/lib$1.a" "$@"
    echo "compiled $1, with nothing proved"
}

# archive NAME...   writes $archives/libNAME.a of each crate, proved first if that is asked for.
archive() {
    if proves; then
        mkdir -p "$archives"
        for wanted in "$@"; do
            # rt does nothing where nothing has changed.
            (cd "crates/$wanted" && rt lib) >"target/$wanted.log" 2>&1 || {
                cat "target/$wanted.log" >&2
                return 1
            }
            cp "crates/$wanted/out/lib$wanted.a" "$archives/"
            echo "proved and compiled $wanted"
        done
        return 0
    fi
    # Side by side.
    making=''
    for wanted in "$@"; do
        compile "$wanted" "crates/$wanted/src/lib.rt" &
        making="$making $!"
    done
    for one in $making; do wait "$one" || return 1; done
}

# join FOLDER   writes libwolamivens.a there, of libnote_c.a and libedits_c.a. An archiver's script adds each one's members as they are, those of
# equal names too.
join() {
    (
        cd "$1"
        "$kit/toolchain/bin/llvm-ar" -M <<END
create libwolamivens.a
addlib libnote_c.a
addlib libedits_c.a
save
end
END
    )
}

# program FILE   writes the program recorder as this file, with nothing proved.
program() {
    python3 tests/unproved.py "$1" recorder crates/recorder/src/main.rt
    echo "compiled recorder, with nothing proved"
}

# prove_program   proves the program recorder and compiles it, as crates/recorder/out/recorder. rt has no word for that alone: it runs what it compiled.
prove_program() {
    (cd crates/recorder && rt run <stdin >/dev/null 2>../../target/recorder.log) || {
        cat target/recorder.log >&2
        return 1
    }
}
