# shellcheck shell=sh
# Sourced by the scripts that prove or build something: what they look at first, so that nobody waits minutes for a line of
# advice.

# Ends a script that cannot run.
refuse() { # WORDS..
    printf '%s\n' "$*" >&2
    exit 2
}

# The comment at a script's head is its help.
help_if_asked() { # SCRIPT ARGS..
    script=$1
    shift
    for word; do
        case $word in
        -h | --help)
            sed -n '2,/^[^#]/s/^# \{0,1\}//p' "$script"
            exit 0
            ;;
        esac
    done
}

# Ends a script over its arguments. `usage` says what they are.
misused() { # WORDS..
    refuse "usage: $usage; $*"
}

# A number has at most 18 digits: the shell can compare it, and every program takes it.
number() { # NAME LEAST VALUE
    case $3 in
    '' | *[!0-9]* | ???????????????????*) misused "$1 is a number of at most 18 digits, not '$3'" ;;
    esac
    [ "$3" -ge "$2" ] || misused "$1 is at least $2"
}

# The arguments of a program of oracle/src/bin.
program_arguments() { # PROGRAM ARGS..
    program=${1-}
    [ $# -eq 0 ] || shift
    case $program in
    list)
        usage='oracle/run list SEED SEQUENCES CALLS [--coverage]'
        [ $# -eq 3 ] || [ "$# ${4-}" = '4 --coverage' ] || misused 'it takes three numbers'
        number SEED 0 "$1"
        number SEQUENCES 1 "$2"
        number CALLS 1 "$3"
        ;;
    board)
        usage='oracle/run board'
        [ $# -eq 0 ] || misused 'it takes no argument'
        ;;
    compare | damaged)
        usage="oracle/$program [SEED] [COUNT]"
        [ $# -le 2 ] || misused 'it takes two numbers at most'
        number SEED 0 "${1-1}"
        number COUNT 1 "${2-1}"
        ;;
    bench)
        usage='bench/run [CALLS] [REPEATS]'
        [ $# -le 2 ] || misused 'it takes two numbers at most'
        number CALLS 1 "${1-1}"
        number REPEATS 1 "${2-1}"
        ;;
    *)
        usage='oracle/run PROGRAM ARGS..'
        misused "the programs are list, board, compare, damaged and bench, not '$program'"
        ;;
    esac
}

needs() { # COMMAND ADVICE
    command -v "$1" >/dev/null || refuse "no $1 here; $2"
}

needs_cargo() {
    needs cargo 'install Rust: https://rustup.rs'
}

needs_rt() {
    needs rt 'install the Rattle kit, and put its folder bin on the PATH'
}

# Puts the folder of the Rust sources into ARM_VGIC_SRC. Nothing of it may be missing.
needs_sources() { # ORACLE, the folder of this file
    folder=${ARM_VGIC_SRC:-$1/../$(cat "$1/default-source")}
    missing=
    for name in types interrupt register distributor; do
        [ -f "$folder/$name.rs" ] || missing="$missing${missing:+,} $name.rs"
    done
    [ -z "$missing" ] || refuse "no$missing in $folder; set ARM_VGIC_SRC to the folder of the Rust sources"
    ARM_VGIC_SRC=$(cd "$folder" && pwd)
    export ARM_VGIC_SRC
}
