# Which sources the program was proved and built from: sil, prove and test read this file. The repository's folder is the
# first argument of each call.
#
# Beside the program stands out/sil.proved: the checksum of all sources that it was proved and built from, the kit that did
# so, and the checksum of the program itself. No time of a file counts: a file that was changed, added, removed or put back
# is seen by what it holds.

# Processor minutes of ./prove from nothing, and the minutes of its longest chain of crates, which more processors do not
# shorten.
PROCESSOR_MINUTES=60
CHAIN_MINUTES=24

program_of() {
    printf '%s\n' "$1/crates/sil/out/sil"
}

# One checksum of crates.txt, HANDLES and each file of the crates' src/, specs/ and proofs/, with its name.
sources_sum() (
    cd "$1" || exit 1
    set --
    for part in crates.txt HANDLES crates/*/src crates/*/specs crates/*/proofs; do
        [ -e "$part" ] && set -- "$@" "$part"
    done
    find "$@" ! -type d -exec sha256sum {} + | LC_ALL=C sort | sha256sum | cut -d ' ' -f 1
)

# The line of the kit whose rt is on the path; nothing where there is none.
kit_line() {
    rt=$(command -v rt) || return 0
    cat "$(dirname "$(readlink -f "$rt")")/../KIT-ID" 2>/dev/null || rt version
}

# What out/sil.proved has to hold where the program was proved from sources with that checksum by that kit.
proved_lines() {
    printf 'sources %s\nkit %s\nprogram %s\n' "$2" "$3" "$(sha256sum <"$(program_of "$1")" | cut -d ' ' -f 1)"
}

# Notes that the program was proved and built from sources with that checksum.
note_proved() {
    [ -n "$2" ] || return 1
    note=$(program_of "$1").proved
    proved_lines "$1" "$2" "$(kit_line)" >"$note.new" && mv "$note.new" "$note"
}

# Whether the program stands there as it was proved and built, from just the sources as they are now.
is_proved() {
    note=$(program_of "$1").proved
    [ -x "$(program_of "$1")" ] && [ -f "$note" ] || return 1
    kit=$(kit_line)
    # Where no kit is on the path, the program was proved by the one that is noted.
    [ -n "$kit" ] || kit=$(sed -n 's/^kit //p' "$note")
    [ "$(cat "$note")" = "$(proved_lines "$1" "$(sources_sum "$1")" "$kit")" ]
}

# The line that ./sil says where the program is not proved.
unproved_line() {
    processors=$(nproc 2>/dev/null || getconf _NPROCESSORS_ONLN)
    minutes=$(((PROCESSOR_MINUTES + processors - 1) / processors))
    [ "$minutes" -ge "$CHAIN_MINUTES" ] || minutes=$CHAIN_MINUTES
    echo "sil: not proved on this machine yet: ./prove does that, in about $minutes minutes on $processors processors"
}
