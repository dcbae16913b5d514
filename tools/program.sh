# Where the programs stand, whether they have to be built again, and what builds them: for the scripts that run, prove
# or install them, which name their folder in `root`.

# The programs, each with the crate that builds it.
declare -A crate_of=([mqfs]=mqfs_bin [mq_kv_tool]=mq_kv_tool_bin)

# Names the crate of a program, and where its builds stand.
choose() {
    program=${crate_of[$1]}
    proved_program=$root/crates/$program/out/$program
    checked_program=$root/crates/$program/out/checked/$program
}

tell() {
    printf '%s: %s\n' "${0##*/}" "$*" >&2
}

# Whether the list of crates is newer than this file, or some source in these crates' folders, or a
# folder of sources.
has_newer_source() {
    local folder newer folders=()
    for folder in "${@:2}"; do
        folders+=("$folder/src" "$folder/specs" "$folder/proofs")
    done
    newer=$(find "$root/crates.txt" "${folders[@]}" -newer "$1" -print -quit 2>/dev/null)
    [[ -n $newer ]]
}

# Whether a program is missing, or older than a source.
is_stale() {
    [[ ! -x $1 ]] || has_newer_source "$1" "$root"/crates/*
}

# Waits until no other call has the lock of this file, and takes it for the rest of the process.
lock() {
    if ! exec 9<"$1" || ! flock 9; then
        tell 'the build cannot be locked'
        exit 70
    fi
}

use_proved() {
    while is_stale "$proved_program"; do
        "$root/prove" "$name" || exit
    done
    built=$proved_program
}

# One build at a time: a second call waits for the first, and finds its work done. The status is 3 where a
# step of the toolchain is missing.
build_checked() (
    lock "$root/$name"
    is_stale "$checked_program" || exit 0
    tell 'the program is built without its proofs, which takes about a minute and a half'
    mkdir -p -- "${checked_program%/*}" || exit 70
    python3 "$root/tools/quick_build.py" "$root" "$program" "$checked_program"
)

use_checked() {
    while is_stale "$checked_program"; do
        build_checked
        case $? in
        0) ;;
        3) tell 'so the program is proved first' && use_proved && return ;;
        *) exit 70 ;;
        esac
    done
    built=$checked_program
}

# Chooses the program of this name, and names in `built` the build of it that is to run, made where it is missing or
# older than a source. It ends the script with status 70 where nothing can be built.
#
# The proved one it is where `prove` built it, and no source is newer. Else it is one that is built of the same sources
# without their proofs, and checked as it runs. With MQFS_BUILD=proved it is the proved one, which is proved first where
# it was not; with MQFS_BUILD=checked it is always the other. Both are built by the Rattle toolchain, with its command
# `rt` on the path.
choose_build() {
    name=$1
    choose "$name"
    case ${MQFS_BUILD-} in
    '')
        if is_stale "$proved_program"; then
            use_checked
        else
            built=$proved_program
        fi
        ;;
    proved) use_proved ;;
    checked) use_checked ;;
    *)
        tell "MQFS_BUILD is neither proved nor checked, but $MQFS_BUILD"
        exit 70
        ;;
    esac
}
