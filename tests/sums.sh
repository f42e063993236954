# What the test programs in bash share. Each begins with:  set -u; . "$(dirname "$0")/../tests/sums.sh"
#
# $top is the top of the repository, and $work a folder that is gone at the end. A program that sets an EXIT trap of its
# own removes $work in it.
#
#   add WHAT WORDS..     runs the words, and says and counts what they gave: the sum 'N passed, M failed, K skipped'
#                        that they print last, or all of cargo's, or 1 if they print none and end well. Shows what they
#                        print if something failed, and fails then. The words run in a subshell
#   show WHAT WORDS..    add for a test program: shows what it prints as it prints it, and wants a sum of it
#   not_run WHY          says that something was left out, and counts it as skipped
#   with "NEED.." add WHAT ..   does that if all of these are there, and else says that it is left out, and fails: a
#                        command, Linux, root's rights (root), cffi for Python, the kit, a packed crate
#                        (LODVARN_PACKED); of A|B one
#   start add WHAT ..    runs it beside the rest, or a function that adds several
#   await_started        waits for all that was started, and shows what each printed
#   finish               prints what failed, by name, and as the last line the sum of all, and ends the program: well if
#                        all passed, and something did
#   is_built CRATE       whether the program that rt builds of a crate is there, and no older than its sources
#   built CRATE          prints the path of that program, and builds it before if it is not
#   say_usage            prints the lines of the program's head that begin with three spaces, and ends it with status 2
top=$(cd "$(dirname "${BASH_SOURCE[0]}")/.." && pwd)
work=$(mktemp -d)
lanes=()
trap 'rm -rf "$work"' EXIT
touch "$work"/{sums,failures}
export PYTHONDONTWRITEBYTECODE=1

# Prints the three numbers of the sum in a file, or nothing. A last line with a sum stands for those before it.
sum_of() {
    awk '/^[0-9]+ passed, [0-9]+ failed/ { last = $1 " " $3 + 0 " " $5 + 0 }
        /^test result: .* passed; .* failed;/ { good += $4; bad += $6; all = good " " bad " 0" }
        END { if (last all != "") print last != "" ? last : all }' "$1"
}

# Notes by name what the end of a file says that failed, right above its sum, or else the whole.
note_failed() {
    awk -v what="$1" '/^FAILED: / { said = said what ": " substr($0, 9) "\n"; next }
        !/^[0-9]+ passed, / { said = "" }
        END { printf "%s", said != "" ? said : what "\n" }' "$2" >> "$work/failures"
}

add() {
    local what=$1 begun=$SECONDS status=0 good= bad=0 left=0 skipped= log=$work/log.$BASHPID
    shift
    if [[ -n ${shown-} ]]; then
        ("$@") 2>&1 | tee "$log"
        status=${PIPESTATUS[0]}
    else
        ("$@") > "$log" 2>&1 || status=$?
    fi
    read -r good bad left < <(sum_of "$log")
    if [[ -z $good && -n ${shown-} ]]; then echo "$what: no sum was printed"; fi
    if [[ -z $good && -z ${shown-} && $status == 0 ]]; then good=1; fi
    good=${good:-0} bad=${bad:-0} left=${left:-0}
    if [[ $bad == 0 && ($good == 0 && $left == 0 || $good != 0 && $status != 0) ]]; then bad=1; fi
    if [[ $bad != 0 ]]; then note_failed "$what" "$log"; fi
    if [[ $bad != 0 && -z ${shown-} ]]; then cat "$log"; fi
    if [[ $left != 0 ]]; then skipped=", $left skipped"; fi
    echo "$what: $good passed, $bad failed$skipped, $((SECONDS - begun)) s"
    echo "$good $bad $left" >> "$work/sums"
    [[ $bad == 0 ]]
}

show() {
    local shown=yes
    echo "== $1"
    add "$@"
}

not_run() {
    echo "NOT RUN: $*"
    echo "0 0 1" >> "$work/sums"
}

is_there() {
    case $1 in
        Linux) [[ $OSTYPE == linux* ]] ;;
        root) [[ $EUID == 0 ]] ;;
        cffi) "$("$top/tests/python/interpreter")" -c 'import cffi, setuptools' 2>&1 ;;
        kit) [[ -n ${RATTLE_KIT-} ]] || command -v rt ;;
        LODVARN_PACKED) [[ -d ${LODVARN_PACKED-}/src/proved ]] ;;
        *"|"*) is_there "${1%%|*}" || is_there "${1#*|}" ;;
        *) command -v "$1" ;;
    esac > /dev/null
}

with() {
    local need name=${3-$2}
    for need in $1; do
        if ! is_there "$need"; then
            not_run "${name#run_}, since there is no ${need//|/ nor }"
            return 1
        fi
    done
    "${@:2}"
}

start() {
    local lane=$work/lane.${#lanes[@]}
    { "$@"; touch "$lane.ended"; } > "$lane" 2>&1 &
    lanes+=("$lane $!")
}

# A lane that did not come to its end fails.
await_started() {
    local lane process
    for lane in "${lanes[@]}"; do
        read -r lane process <<< "$lane"
        wait "$process"
        cat "$lane"
        [[ -e $lane.ended ]] || add "end of a lane" false
    done
    lanes=()
}

finish() {
    sed 's/^/FAILED: /' "$work/failures"
    awk '{ good += $1; bad += $2; left += $3 }
        END { print good + 0 " passed, " bad + 0 " failed" (left ? ", " left " skipped" : "")
            exit bad != 0 || !good }' "$work/sums"
    exit
}

is_built() {
    local program=$top/crates/$1/out/$1
    [[ -e $program && -z $(find "$top"/crates/{rl_base,rl_line,rl_record,rl_session,"$1"}/src -name '*.rt' -newer "$program") ]]
}

built() {
    local folder=$top/crates/$1 given=/dev/null
    if [[ -f $folder/stdin ]]; then given=$folder/stdin; fi
    is_built "$1" || (cd "$folder" && rt run < "$given" > /dev/null) || return
    echo "$folder/out/$1"
}

say_usage() {
    sed -n '/^#/!q; s/^#   //p' "$0" >&2
    exit 2
}
