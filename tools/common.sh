# What the scripts of the repository share; they read it before they do anything, each with its own arguments.
#
# The comment at the head of a script is its usage. The lines above its first empty one say what the script does and how
# it is called; those below, what else there is to know. `--help` or `-h` prints it all, and the script ends with 0.

# Text is bytes, for whichever awk, sed, sort and grep are there, and whatever language the caller works in.
export LC_ALL=C

top=$(cd "$(dirname "$0")/.." && pwd)
script=$(basename "$(cd "$(dirname "$0")" && pwd)")/$(basename "$0")

for word in "$@"; do
    case $word in
    --help | -h)
        sed -n '2,$ { /^#/!q; s/^# \{0,1\}//p; }' "$0"
        exit 0
        ;;
    esac
done

# Ends with 2: something is not there that the script needs.
lacks() { # WHAT
    echo "$script: $*" >&2
    exit 2
}

# Ends with 2: the script was called with wrong arguments. Says how it is called.
wrong() { # WHAT
    echo "$script: $*" >&2
    sed -n '2,$ { /^# /!q; s/^# //p; }' "$0" >&2
    exit 2
}

# Ends unless there are so many arguments, with no option among them.
arguments() { # LEAST MOST ARGUMENT..
    local least=$1 most=$2 word
    shift 2
    for word in "$@"; do
        case $word in -*) wrong "no option $word" ;; esac
    done
    [ $# -ge "$least" ] || wrong "an argument is missing"
    [ $# -le "$most" ] || wrong "an argument too many"
}

# Ends unless each of these can be run.
need() { # PROGRAM..
    local program
    for program in "$@"; do
        command -v "$program" >/dev/null || lacks "no $program here"
    done
}

# The toolchain: $kit is its folder.
need_kit() {
    command -v rt >/dev/null || lacks "no rt here, the command of the Rattle toolchain"
    kit=${RATTLE_HOME:-$(dirname "$(dirname "$(readlink -f "$(command -v rt)")")")}
    [ -d "$kit/toolchain" ] || lacks "no toolchain in $kit: set RATTLE_HOME to its folder"
}

# Prints the crates that a crate leans on, as crates.txt has them.
leans_on() { # NAME
    sed -n "s/^$1\( staticlib\)\{0,1\}: *//p" "$top/crates.txt"
}

# Ends unless this is a program of ours.
need_program() { # NAME
    [ -f "$top/crates/$1/src/main.rt" ] && return
    wrong "no program '$1'; there are$(cd "$top/crates" && printf ' %s' */src/main.rt | sed 's|/src/main\.rt||g')"
}

# Ends unless this is a program of ours that tools/prove has proved and linked.
need_proved() { # NAME
    need_program "$1"
    [ -x "$top/crates/$1/out/$1" ] || lacks "$1 is not proved yet: run tools/prove $1"
}

# Ends unless the oracle has cases of this name.
need_subject() { # NAME
    [ -n "$1" ] && [ -f "$top/oracle/src/$1/fixed.rs" ] && return
    wrong "no cases '$1'; there are$(cd "$top/oracle/src" && printf ' %s' */fixed.rs | sed 's|/fixed\.rs||g')"
}

# Ends unless the word is a whole number.
need_number() { # WHAT WORD
    case $2 in
    '' | *[!0-9]*) wrong "$1: '$2' is no whole number" ;;
    esac
}

# Ends unless this is a Cortex-M that the library is compiled for: $cpu is what compilers call it, $board the board of
# QEMU's that runs it.
need_cortex() { # PROCESSOR
    case $1 in
    thumbv7em) cpu=cortex-m4 board=mps2-an386 ;;
    thumbv6m) cpu=cortex-m0plus board=mps2-an385 ;;
    *) wrong "no processor '$1'; there are thumbv7em and thumbv6m" ;;
    esac
}

# Ends unless arm-none-eabi-gcc has its C library.
need_newlib() {
    [ -f "$(arm-none-eabi-gcc -print-file-name=rdimon.specs)" ] || lacks "no newlib for arm-none-eabi-gcc here"
}

# Makes the archive for that processor, unless it is there and newer than every crate.
need_archive() { # FOLDER PROCESSOR
    local archive=$1/libsandline_c.a
    [ -f "$archive" ] && [ -z "$(find "$top/crates" "$top/tools" -newer "$archive" -type f -print -quit)" ] ||
        "$top/tools/archive" "$@"
}

# Compiles a program of C for that Cortex-M, over its archive, to be run by tools/emulate: with newlib, which reads and
# writes by semihosting, and a vector table at address 0.
cross() { # OUT FILE.c ARCHIVE WORD..
    local out=$1
    shift
    arm-none-eabi-gcc -std=c11 -Wall -Wextra -Wpedantic -Wconversion -Wshadow -Werror -O2 -I "$top/include" \
        -mcpu="$cpu" -mthumb -mfloat-abi=soft --specs=rdimon.specs \
        -Wl,--section-start=.vectors=0,--defsym=__stack=0x400000,--no-warn-execstack \
        "$top/bindings/c/cortex.c" "$@" -o "$out"
}
