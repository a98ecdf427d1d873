# shellcheck shell=bash
# Parts of a check. tests/all, tests/plain, tests/quick, tests/plain_rust and tests/c_library source this file
# at the top of the repository. Each part is named when it begins, and finish_parts prints the time of each, and
# the processor time of all.
# Output that only matters if a part fails goes to the folder $scratch.
scratch=$(mktemp -d) || exit 1
trap 'kill -- "${beside[@]/#/-}" 2> "$log"; rm -rf "$scratch"' EXIT
# Parts that run at the same time: the group of processes of each command that was begun.
declare -A beside=()
log=$scratch/log times=$scratch/times passed_parts=0 failed_parts=()
# shellcheck disable=SC2034 # scripts use it
rules=(tests/count_rule tests/error_rule tests/pages)

part() { # name, command ..
    local name=$1 begun=$SECONDS status=0 took
    shift
    echo "== $name"
    "$@" || status=$?
    took=$((SECONDS - begun))
    printf '%3d:%02d  %s\n' $((took / 60)) $((took % 60)) "$name" >> "$times"
    if [ "$status" -eq 0 ]; then
        passed_parts=$((passed_parts + 1))
    else
        failed_parts+=("$name")
        echo "   FAILED: $name"
    fi
    return "$status"
}

quietly() { # command ..: shows the end of its output if it fails
    "$@" > "$log" 2>&1 || { tail -n 60 "$log"; return 1; }
}

begin() { # command or function ..: starts it in its own group, with the lowest priority, and does not wait
    [ -z "${IN_TURN-}" ] || return 0 # `ended` runs it
    set -m
    (log=$scratch/${1##*/}.log; renice -n 19 "$BASHPID" > "$log"; "$@") > "$scratch/${1##*/}.out" 2>&1 &
    beside[$*]=$!
    set +m
}

ended() { # command or function ..: runs it, or waits for it if it was begun, and shows its output
    local status=0
    [ -n "${beside[$*]-}" ] || { "$@"; return; }
    wait "${beside[$*]}" || status=$?
    unset "beside[$*]"
    cat "$scratch/${1##*/}.out"
    return "$status"
}

in_folder() { (cd "$1" && shift && "$@"); } # folder, command ..

finish_parts() { # name of the check
    # The status of a part that was begun is known only once it ended.
    [ "${#failed_parts[@]}" -gt 0 ] || failed_parts=("${!beside[@]}")
    echo "== minutes and seconds that each part took"
    cat "$times"
    times > "$scratch/worked"
    echo "processor time of programs and of the system: $(tail -n 1 "$scratch/worked")"
    [ "${#failed_parts[@]}" -eq 0 ] || printf 'failed: %s\n' "${failed_parts[@]}"
    echo "$1: $passed_parts parts passed, ${#failed_parts[@]} failed"
    [ "${#failed_parts[@]}" -eq 0 ]
}
