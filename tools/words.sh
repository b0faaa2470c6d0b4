# shellcheck shell=bash disable=SC2034 # the scripts use the names that are set here
# The words that the scripts share. A script of a folder beside this one has them by
#     source "${BASH_SOURCE[0]%/*}/../tools/words.sh"
# That starts no other program, for the gate calls some of the scripts hundreds of times.
set -euo pipefail

# The repository, and the folder beside it with the Rust's text, document 01 and a laptop's recordings.
cd "${BASH_SOURCE[0]%/*}/.." && root=$PWD && cd "$OLDPWD"
shared=$root/../shared
rustc=${RUSTC:-rustc}

# ---- for every script

# the_kit: sets kit to the folder of the Rattle kit, and bin and lib to its tools and its C library, which are for x86-64.
the_kit() {
    kit=$(rt doc)
    kit=${kit%/*}
    bin=$kit/toolchain/bin lib=$kit/toolchain/lib
}

# llvm TOOL WORD..: a tool of LLVM that the kit's clang has under another name, as llvm-nm or llvm-objdump. It wants the_kit first.
llvm() { (exec -a "$1" "$bin/clang" "${@:2}"); }

# scratch: sets dir to a new folder in TMPDIR, which is gone when the script ends, also when a signal ends it.
scratch() {
    dir=$(mktemp -d)
    trap 'rm -rf "$dir"' EXIT
}

# stop WHAT..: ends a script that is no check; it says its name and the reason.
stop() {
    echo "$(realpath --relative-to "$root" "$0"): $*" >&2
    exit 1
}

# quietly LOG COMMAND..: what the command says goes to the file LOG, and is shown where the command fails.
quietly() {
    "${@:2}" >"$1" 2>&1 && return
    cat "$1" >&2
    return 1
}

# digest PATH..: one number for rustc, the script that asks, these words and every file of the paths: the inputs of a build.
digest() {
    { "$rustc" -vV && find "$(realpath "$0")" "$root/tools/words.sh" "$@" -type f -exec sha256sum {} + | LC_ALL=C sort; } | sha256sum
}

# pinned: stops where the Rust's text is another than the one that the judge was written for.
pinned() {
    (cd "$shared/docs/src" && sha256sum --check --quiet "$root/judge/oracle/sources.sha256") ||
        stop '../shared/docs/src is not the text that judge/oracle/sources.sha256 pins'
}

# ---- for the checks: each says what has passed, stops at the first failure, and ends with 'N passed, 0 failed'

passed=0

# ok N WHAT..: N things more have passed.
ok() {
    passed=$((passed + $1))
    echo "ok: ${*:2}"
}

# failed [WHAT..]: ends the check.
failed() {
    [[ $# -eq 0 ]] || echo "FAILED: $*"
    echo "$passed passed, 1 failed"
    exit 1
}

# same EXPECTED FOUND WHAT..: fails where the two files differ, and shows their first differences.
same() {
    cmp -s "$1" "$2" && return
    diff "$1" "$2" | cut -c 1-200 | head -n 10 || true
    failed "${@:3}"
}

# same_answers QUESTIONS EXPECTED FOUND WHAT..: the same for files with a line for each question; a difference is shown with its question.
same_answers() {
    paste "$2" "$1" >"$2.asked"
    paste "$3" "$1" >"$3.asked"
    same "$2.asked" "$3.asked" "${@:4}"
    [[ $(wc -l <"$3") -eq $(wc -l <"$1") ]] || failed "${*:4}: there is another number of answers than of questions"
}

# le WIDTH NUMBER..: little-endian bytes of each number
le() {
    local wide=$1 n k text=''
    shift
    for n; do
        for ((k = 0; k < wide; k++)); do
            printf -v text '%s\\x%02x' "$text" "$((n >> 8 * k & 255))"
        done
    done
    printf '%b' "$text"
}

# framed FILE..: what benches reads
framed() {
    local file
    for file; do
        le 4 "$(wc -c <"$file")"
        cat "$file"
    done
}

# due_lines FILE.bot..: what benches has to print for these vectors
due_lines() {
    local file
    for file; do
        echo '=='
        cat "${file%bot}out"
    done
}

# stack_within PROCESSOR FOUND LIBRARY WHEN..: in the file FOUND a line 'CALL BYTES' has the stack that a call was seen to take. Every call has
# one, and none has more bytes than tools/stack says, with LIBRARY more for the C library's own functions.
stack_within() {
    "$root/tools/stack" "$1" >"$2.rows" || failed "tools/stack $1"
    sed -n '/^souk_/p' "$2.rows" | cut -d ' ' -f 1,3 >"$2.bounds"
    grep -xE 'souk_[a-z_]+ [0-9]+' "$2" | LC_ALL=C sort >"$2.seen"
    LC_ALL=C join "$2.bounds" "$2.seen" >"$2.both"
    [[ $(wc -l <"$2.both") -eq $(wc -l <"$2.bounds") ]] || failed "$1: not every call's stack was seen"
    awk -v library="$3" '$3 > $2 + library { print; wrong = 1 } END { exit wrong }' "$2.both" || failed "$1: a call goes deeper than tools/stack says"
    ok 1 "$1: stack by tools/stack and as seen ${*:4}: $(sed 's/^souk_//' "$2.both" | paste -sd , | sed 's/,/, /g')"
}

# skipped WHAT WHY: a line that ./check gathers.
skipped() { echo "skipped: $1: $2"; }

# finish: the last line of a check, and its end.
finish() {
    echo "$passed passed, 0 failed"
    exit 0
}
