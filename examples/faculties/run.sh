#!/usr/bin/env bash
# Finds, checks and reports the rooms of every faculty of this folder, side by side.
#
#     ./run.sh [JOBS]       all faculties, at most JOBS at a time (default: one for each processor)
#     ./run.sh one NAME     the faculty of the folder NAME alone, as one job of a queue
#
# A faculty is a folder with instance.ctt, times.sol and measures.txt. In the folder OUT (default: out, here) each has
#     NAME.answer   what `rooms solve` printed: Optimal, or Open at a level, the six values and the rooms
#     NAME.cert     the certificate
#     NAME.sol      the times with the rooms that were found
#     NAME.json     the line of `rooms report --json` for them
#     NAME.status   the statuses of `solve`, `check` and `report`, one line
# and, after a run of all, reports.jsonl: a line {"faculty":NAME,"report":..} for each faculty with a report.
#
# `one` ends with 0 where the rooms are the best, the certificate is valid in all six measures and the report was
# written, else with the first status of `rooms` that is not 0. All together end with 0 where each faculty did, else
# with 1. ROOMS names the program (default: the one of this repository), BUDGET the branches of a search.
set -u
cd "$(dirname "$(readlink -f "${BASH_SOURCE[0]}")")" || exit 70

rooms="${ROOMS:-../../rooms}"
out="${OUT:-out}"

# The rooms of one faculty.
one() {
    local name="$1" solved checked=- reported=- verdict
    local inputs=("$name/instance.ctt" "$name/times.sol" "$name/measures.txt")
    rm -f "$out/$name".{answer,cert,sol,json,status}
    "$rooms" solve "${inputs[@]}" "$out/$name.cert" --budget "${BUDGET:-1000}" > "$out/$name.answer"
    solved=$?
    # 3 is a search that its budget stopped: its rooms are legal and its certificate is valid as far as it goes.
    if [ $solved -eq 0 ] || [ $solved -eq 3 ]; then
        "$rooms" check "${inputs[@]}" "$out/$name.cert" > /dev/null
        checked=$?
        # After the first line and the six values come the meetings with their rooms.
        tail -n +8 "$out/$name.answer" > "$out/$name.sol"
        "$rooms" report "${inputs[0]}" "$out/$name.sol" "${inputs[2]}" --json > "$out/$name.json"
        reported=$?
    fi
    echo "$name solve $solved check $checked report $reported" > "$out/$name.status"
    for verdict in $solved $checked $reported; do
        [ "$verdict" = 0 ] || return "$verdict"
    done
}

# Every faculty, JOBS at a time, and then their statuses and reports in the order of their names.
all() {
    local failed=0 status name
    rm -f "$out"/*.status "$out/reports.jsonl"
    make --no-print-directory -k -j "$1" -f faculties.mk > /dev/null || failed=1
    for status in "$out"/*.status; do
        [ -e "$status" ] || continue
        cat "$status"
        name="$(basename "$status" .status)"
        grep -q ' report 0$' "$status" || continue
        printf '{"faculty":"%s","report":%s}\n' "$name" "$(cat "$out/$name.json")" >> "$out/reports.jsonl"
    done
    return $failed
}

mkdir -p "$out" || exit 70
case "${1:-}" in
    one) one "${2:?the name of a faculty}" ;;
    *) all "${1:-$(nproc)}" ;;
esac
