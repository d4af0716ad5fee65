# Sourced by the scripts, with $me the name that their lines begin with: which tools are there, what
# a crate is made of, and proofs that tell how far they are. $root is the tree.
root=$(cd "$(dirname "${BASH_SOURCE[0]}")/.." && pwd -P)

# rt is looked for in PATH, then in $RATTLE_HOME.
if [ -n "${RATTLE_HOME:-}" ] && [ -x "$RATTLE_HOME/bin/rt" ] && ! command -v rt >/dev/null; then
    export PATH=$PATH:$RATTLE_HOME/bin
fi

# say WORDS..: a line on standard error.
say() { echo "$me: $*" >&2; }

# wrong WORDS..: ends a wrong use, with the sentence that says what to do.
wrong() { say "$@"; exit 2; }

# had TOOL: what a tool is, and behind a bar how it is had.
had() {
    case $1 in
    rt) echo "the command of the Rattle kit|put the kit's bin/ folder into PATH, or set RATTLE_HOME to the kit's folder" ;;
    cargo | rustc) echo "which builds Rust|apt-get install $1, or by rustup; it takes rustc $(least_rustc) or later" ;;
    cc) echo "the C compiler|apt-get install gcc" ;;
    c++) echo "the C++ compiler|apt-get install g++" ;;
    python3) echo "which runs ./papers and ./judge|apt-get install python3" ;;
    valgrind) echo "which counts instructions|apt-get install valgrind" ;;
    qemu-*) echo "which runs programs of that machine|apt-get install qemu-user" ;;
    apt-get | dpkg) echo "which fetches what tls-parser needs|take a Debian system, or one made of it" ;;
    git) echo "which tells the commit|apt-get install git" ;;
    ar | nm) echo "which reads archives|apt-get install binutils" ;;
    flock) echo "which keeps two builds apart|apt-get install util-linux" ;;
    cmp) echo "which compares files|apt-get install diffutils" ;;
    find) echo "which lists files|apt-get install findutils" ;;
    awk | tar | gzip) echo "a tool of every system|apt-get install ${1/#awk/mawk}" ;;
    *) echo "a tool of every system|apt-get install coreutils" ;;
    esac
}

# The version of rustc that the Rust crate asks for.
least_rustc() { sed -n 's/^rust-version = "\(.*\)"$/\1/p' "$root/rust/Cargo.toml"; }

# lacks TOOL: a sentence, where the tool is not there or cannot be used: what it is, what to do.
lacks() {
    local of found least
    if ! command -v "$1" >/dev/null; then
        of=$(had "$1")
        echo "$1, ${of%%|*}, is not there: ${of#*|}"
    elif [ "$1" = rt ]; then
        found=$(rt version 2>&1) ||
            echo "rt is $(command -v rt) and does not work (${found#rt: }): set RATTLE_HOME to the kit's folder, or unset it"
    elif [ "$1" = rustc ]; then
        found=$(rustc --version 2>&1 | sed -n 's/^rustc \([0-9.]*\).*/\1/p') least=$(least_rustc)
        printf '%s\n' "$least" "${found:-0}" | sort -C -V ||
            echo "rustc is $(command -v rustc), version ${found:-unknown}: take $least or later, by rustup or a newer Debian"
    fi
}

# look_for TOOL..: ends the script where one is lacking, after a sentence for each that is.
look_for() {
    local tool lack status=0
    for tool in "$@"; do
        lack=$(lacks "$tool")
        [ -z "$lack" ] || { say "$lack"; status=2; }
    done
    [ "$status" -eq 0 ] || exit "$status"
}

# show TOOL..: where the tools are; not those that a script above this one has shown.
show() {
    local tool others=""
    for tool in "$@"; do
        case " ${TOOLS_SHOWN:-} " in *" $tool "*) continue ;; esac
        export TOOLS_SHOWN="${TOOLS_SHOWN:-} $tool"
        case $tool in
        rt) say "rt is $(command -v rt), $(rt version)" ;;
        rustc) say "rustc is $(command -v rustc), $(rustc --version)" ;;
        cargo | cc | c++ | python3 | valgrind | apt-get | dpkg | git) say "$tool is $(command -v "$tool")" ;;
        *) others="$others $(command -v "$tool")" ;;
        esac
    done
    [ -z "$others" ] || say "and$others"
}

# need TOOL..: looks for all of them, then shows where they are.
need() { look_for "$@"; show "$@"; }

# The folder of the kit.
kit() { dirname "$(rt doc)"; }

# stands_on NAME..: the crates named and all that they reach, in the order of crates.txt, which has
# lower ones first.
stands_on() {
    WANTED="$*" awk -F : '
        /^[a-z]/ { split($1, word, " "); name[++n] = word[1]; deps[n] = $2 }
        END {
            split(ENVIRON["WANTED"], list, " ")
            for (k in list) wanted[list[k]]
            for (k = n; k; k--)
                if (name[k] in wanted) { split(deps[k], list, " "); for (d in list) wanted[list[d]] }
            for (k = 1; k <= n; k++) if (name[k] in wanted) print name[k]
        }' "$root/crates.txt"
}

# uses NAME: the libraries that a crate's line of crates.txt names.
uses() { sed -n "s/^$1\( [^:]*\)\{0,1\}://p" "$root/crates.txt"; }

# The names of the programs, in the order of crates.txt.
programs() {
    local name
    while read -r name; do
        [ ! -f "$root/crates/$name/src/main.rt" ] || echo "$name"
    done < <(sed -n 's/^\([a-z][a-z0-9_]*\)[ :].*/\1/p' "$root/crates.txt")
}

# sources NAME KIT FILE..: the checksum of all that a crate is made of: the kit, by what
# `rt version` says, the machine, crates.txt, the files of all crates that it stands on, and the
# files named.
sources() (
    cd "$root"
    crates=$(stands_on "$1") paths=(crates.txt "${@:3}")
    for crate in $crates; do
        for part in src specs proofs stdin stdout args status data; do
            [ ! -e "crates/$crate/$part" ] || paths+=("crates/$crate/$part")
        done
    done
    {
        echo "$2"
        uname -m
        find "${paths[@]}" -type f -print0 | LC_ALL=C sort -z | xargs -0 sha256sum
    } | sha256sum | cut -d ' ' -f 1
)

# sum_of FILE: its checksum; nothing, where it is not there.
sum_of() { [ ! -f "$1" ] || sha256sum <"$1" | cut -d ' ' -f 1; }

# told_of NAME: of a program that was proved, what it was made of, and what it is. It stands in
# target/run/NAME.sum.
told_of() { printf '%s\n' "sources $(sources "$1" "$(rt version)")" "program $(sum_of "$root/crates/$1/out/$1")"; }

# built_of NAME: the checksum of the libraries below a crate as `rt ci` left them built; nothing,
# where one is not there, or is what another command built, beside which a stamp stands.
built_of() (
    cd "$root/crates"
    formats=()
    for name in $(stands_on "$1"); do
        [ "$name" != "$1" ] || continue
        [ -f "$name/out/rlib/$name.rlib/format" ] && [ ! -e "$name/out/rlib/stamp" ] || exit 0
        formats+=("$name/out/rlib/$name.rlib/format")
    done
    cat "${formats[@]}" | sha256sum | cut -d ' ' -f 1
)

# start LOG COMMAND..: runs a command beside the script, as $job; what it says goes to the log. It
# is a group of its own, so that what ends the script ends it with all that it has started.
start() {
    local log=$1
    shift
    set -m
    (set -e && "$@") >"$log" 2>&1 </dev/null &
    job=$!
    set +m
    trap 'stop 130' INT
    trap 'stop 143' TERM
    trap 'stop 129' HUP
}

# stop STATUS: ends the command of start, and the script.
stop() {
    trap '' INT TERM HUP
    kill -- "-$job" 2>/dev/null || true
    say "stopped"
    exit "$1"
}

# Whether the command of start goes on.
goes_on() { kill -0 "$job" 2>/dev/null; }

# finish: waits for the command of start; its status.
finish() {
    local status=0
    wait "$job" || status=$?
    trap - INT TERM HUP
    return "$status"
}

# in_crate NAME WORDS..: rt with these words, in the folder of a crate; it proves first, one after
# the other, those of the crates below that are not proved yet. Tells how many crates there are,
# then each as it is proved, and what is being proved where none was for ten seconds. What rt says
# goes to target/log/NAME.log. Where a crate is not proved: what rt said of it, and status 1.
in_crate() {
    local name=$1 log=$root/target/log/$1.log began=$SECONDS last=$SECONDS on=yes of="" since=0 seen=0 all line status=0
    shift
    mkdir -p "$root/target/log"
    say "$name: $(stands_on "$name" | wc -l) crates with those below; what is proved is kept, and a second call starts at once"
    start "$log" within "$root/crates/$name" rt "$@"
    while [ "$on" = yes ]; do
        sleep 0.3
        goes_on || on=no
        all=$(wc -l <"$log")
        # rt names a crate as it begins with it, and ends it with the line of the verdict
        while IFS= read -r line; do
            case $line in
            "rt: chose --jobs "*) of=${line##* } since=$SECONDS ;;
            "logic=proved "*)
                [ -z "$of" ] || echo "    $of $((SECONDS - since)) s" >&2
                of="" last=$SECONDS
                ;;
            "logic=not-proved"*) [ -z "$of" ] || echo "    $of is NOT PROVED" >&2 ;;
            esac
        done < <(sed -n "$((seen + 1)),${all}p" "$log")
        seen=$all
        [ $((SECONDS - last)) -ge 10 ] || continue
        [ -z "$of" ] || echo "    being proved: $of for $((SECONDS - since)) s" >&2
        last=$SECONDS
    done
    finish || status=$?
    # a program that was run ends with a status of its own
    ! grep -q '^rt: running ' "$log" || status=0
    if [ "$status" -ne 0 ]; then
        grep -v '^\(statements\|library\|crate\|logic\|axioms\) \|: proved$' "$log" >&2 || true
        say "not proved; above is what rt said"
        return 1
    fi
    say "$((SECONDS - began)) s"
}

# within FOLDER COMMAND..: runs a command there.
within() { cd "$1" && shift && exec "$@"; }
