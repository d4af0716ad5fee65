# Sourced by judge, record, run, swap and the bench, with $here this folder, $me the name that the
# script's lines begin with and usage a function that ends it: puts tls-parser 0.12.2 together from
# its published sources, unchanged, and builds programs over it. All that is fetched or built lies
# in $work; a second call reuses it.
. "$here/../tools/tools.sh"
work=$(dirname "$here")/target/judge
registry=$work/registry
base=$registry/tls-parser-0.11.0

# The dependencies, with what they need, as Debian packages librust-NAME-dev.
packages="tls-parser nom nom-derive nom-derive-impl rusticata-macros cookie-factory
    phf phf-shared phf-codegen phf-generator siphasher num-enum num-enum-derive
    memchr minimal-lexical rustversion proc-macro2 quote syn unicode-ident
    rand rand-chacha rand-core ppv-lite86 libc getrandom cfg-if"

# find_sources [SRC]: $src is the folder of the published sources (tls_handshake.rs and the others):
# SRC or else $TLS_PARSER_SRC, or the src/ in it.
find_sources() {
    src=${1:-${TLS_PARSER_SRC:-}}
    if [ -z "$src" ]; then
        say "TLS_PARSER_SRC is not set: set it to the folder with src/*.rs of tls-parser 0.12.2 (compare/README.md)"
        usage
    fi
    [ ! -f "$src/src/tls_handshake.rs" ] || src=$src/src
    [ -f "$src/tls_handshake.rs" ] || { say "no sources of tls-parser, tls_handshake.rs and the others, in '$src'"; usage; }
    src=$(cd "$src" && pwd -P)
}

# find_tools [--archive] TOOL..: looks for all that build takes, for what rust/archive takes now,
# where Norrabist's archive is linked, and for the tools named, and shows where they are.
find_tools() {
    local fetched="" made=""
    [ -f "$work/versions.txt" ] || fetched="apt-get dpkg"
    if [ "${1:-}" = --archive ]; then
        shift
        if [ -z "${NORRABIST_LIB:-}" ]; then
            made=$("$root/rust/archive" --needs)
        elif [ ! -f "$NORRABIST_LIB/libnorrabist_c.a" ]; then
            wrong "no libnorrabist_c.a in '$NORRABIST_LIB', which NORRABIST_LIB names: unset it, or name a folder that has one"
        fi
    fi
    need $made cargo rustc cc $fetched cmp flock "$@"
}

# Norrabist's archive: that of $NORRABIST_LIB, or the one that rust/archive makes. It is named by
# its path, so that cargo takes none that another tree has built.
find_archive() {
    [ -n "${NORRABIST_LIB:-}" ] || "$root/rust/archive"
    NORRABIST_LIB=$(cd "${NORRABIST_LIB:-$root/target/native}" && pwd -P)
    export NORRABIST_LIB
}

# Downloads the packages and unpacks them into a cargo directory source.
fetch() {
    local names=() p d
    say "fetching the packages that tls-parser needs"
    for p in $packages; do names+=("librust-$p-dev"); done
    rm -rf "$work/debs" "$work/root" "$registry"
    mkdir -p "$work/debs" "$work/root"
    cd "$work/debs"
    apt-get -qq download "${names[@]}" 2>"$work/fetch.log" ||
        { apt-get -qq update && apt-get -qq download "${names[@]}"; } 2>"$work/fetch.log" ||
        { cat "$work/fetch.log" >&2; exit 1; }
    for d in *.deb; do dpkg -x "$d" "$work/root"; done
    mv "$work/root/usr/share/cargo/registry" "$registry"
    ls "$registry" >"$work/versions.txt"
}

# Copies a file only where it differs, so that cargo does not build again.
put() { cmp -s "$1" "$2" || cp --no-preserve=mode "$1" "$2"; }

# Makes the package: $src as it is, and from Debian's 0.11.0 what $src lacks.
assemble() {
    local package=$work/tls-parser f
    mkdir -p "$package/src" "$package/scripts" "$work/.cargo"
    for f in "$src"/*.rs; do
        put "$f" "$package/src/${f##*/}"
        cmp "$f" "$package/src/${f##*/}"
    done
    put "$base/src/certificate_transparency.rs" "$package/src/certificate_transparency.rs"
    put "$base/scripts/tls-ciphersuites.txt" "$package/scripts/tls-ciphersuites.txt"
    cipher_build >"$work/build.rs"
    put "$work/build.rs" "$package/build.rs"
    put "$here/tls-parser.toml" "$package/Cargo.toml"
    put "$here/workspace.toml" "$work/Cargo.toml"
    put "$here/source.toml" "$work/.cargo/config.toml"
}

# The build script of 0.11.0 with the two fields that 0.12.2 has otherwise.
cipher_build() {
    sed -e 's/id:0x{}/id:TlsCipherSuiteID(0x{})/' \
        -e 's/mac_size:{},}}/mac_size:{}, prf:TlsPRF::{},}}/' \
        -e 's|v\[8\], // mac_size|v[8], titlecase_word(v[9]),|' "$base/build.rs"
}

# build PROGRAM [PROFILE]: leaves the program $work/target/PROFILE/PROGRAM, PROFILE being release if
# not said. One build at a time, as the commands may stand in one pipe. JOBS sets the number of
# cargo jobs.
build() {
    mkdir -p "$work"
    exec 9>"$work/lock"
    flock 9
    [ -f "$work/versions.txt" ] || (fetch)
    assemble
    (
        cd "$work"
        CARGO_HOME=$work/home CARGO_BUILD_JOBS=${JOBS:-1} \
            cargo build --quiet --profile "${2:-release}" --offline --package "$1" \
            >"$work/build.log" 2>&1
    ) || { cat "$work/build.log" >&2; exit 1; }
    exec 9>&-
}
