# What the program is made of, and the digest of that: to be sourced, with `set -u` and top set to the
# repository's folder.

# find_order: sets order to the crates of the program, lowest first. Of each crate of the repository, lines has its
# line of crates.txt, and uses the crates of the repository that it stands on (the kit's aren't in crates.txt).
declare -gA uses=() lines=() seen=()
order=()
find_order() {
    local line name each kept
    while IFS= read -r line; do
        line=${line%%#*}
        if [[ $line == *:* ]]; then
            read -r name _ <<<"${line%%:*}"
            uses[$name]=${line#*:} lines[$name]=$line
        fi
    done <"$top/crates.txt"
    for name in "${!uses[@]}"; do
        kept=
        for each in ${uses[$name]}; do
            [ -z "${lines[$each]+here}" ] || kept+=" $each"
        done
        uses[$name]=$kept
    done
    below protoscip_cli
}

# below CRATE: adds to order the crates that the crate stands on, lowest first, and then the crate itself.
below() {
    local each
    seen[$1]=1
    for each in ${uses[$1]}; do
        [ -n "${seen[$each]+here}" ] || below "$each"
    done
    order+=("$1")
}

# find_parts: sets parts to the folders, below the repository's, of what these crates are made of.
find_parts() {
    local name part
    parts=()
    for name in "${order[@]}"; do
        for part in src specs proofs; do
            if [ -d "$top/crates/$name/$part" ]; then
                parts+=("crates/$name/$part")
            fi
        done
    done
}

# digest_of_sources: prints one digest of HANDLES, of the crates' lines of crates.txt, and of the names and contents of
# their files.
digest_of_sources() (
    cd "$top" || exit
    export LC_ALL=C
    {
        for name in "${order[@]}"; do
            echo "${lines[$name]}"
        done | sort
        find HANDLES "${parts[@]}" -type f -print0 | sort -z | xargs -0 sha256sum
    } | sha256sum | cut -d ' ' -f 1
)

# release_says WORD: what release/SOURCES has behind this word: `sources` the digest, `kit` the kit's version.
release_says() {
    sed -n "s/^$1: //p" "$top/release/SOURCES" 2>/dev/null
}

# sum_of FILE: the SHA-256 of a file, or of standard input.
sum_of() {
    local sum
    sum=$(sha256sum "$@") && echo "${sum%% *}"
}

# released_sum: the SHA-256 that release/SHA256 has of the released program.
released_sum() {
    cut -d ' ' -f 1 "$top/release/SHA256" 2>/dev/null
}
