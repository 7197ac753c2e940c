#!/usr/bin/env bash
# Follows what rt prints: the whole of it goes to a log; to standard error goes a line for each crate as it is proved and as its
# edits are begun, with how many are left, and whatever failed.
# usage, from the root: rt .. 2>&1 | tools/progress.sh LOG
# rt ci says of no crate how long it took. Its folder out/ is made when its proof begins, so the time since then is taken, and stands
# in the log too, as `seconds: NAME S`.
set -euo pipefail
shopt -s nullglob
log=$1
crates_left=$(grep -cE '^[a-z].*:' crates.txt)
edits=(crates/*/must-fail/*.edit)
edits_begun=0
proving=
since=0

say() { printf '%s\n' "$*" >&2; }

# rt ci has proved this crate.
crate_proved() {
    local made
    made=$(stat -c %W "crates/$1/out" 2> /dev/null || echo 0)
    crates_left=$((crates_left - 1))
    if [ "$made" -gt 0 ]; then
        made=$(($(date +%s) - made))
        printf 'seconds: %s %s\n' "$1" "$made" >&3
        say "$1: proved in $made s (crates left: $crates_left)"
    else
        say "$1: proved (crates left: $crates_left)"
    fi
}

# rt ci begins to try so many edits of this crate; what came of them it says once it has tried those of all crates.
crate_tried() {
    edits_begun=$((edits_begun + $2))
    say "$1: edits to try: $2 (begun so far: $edits_begun of ${#edits[@]})"
}

mkdir -p "$(dirname "$log")"
failed=false
while IFS= read -r line || [ -n "$line" ]; do
    printf '%s\n' "$line" >&3
    # `rt: NAME ..` or `rt: NAME: ..`
    name=${line#rt: }
    name=${name%% *}
    name=${name%:}
    case $line in
    'rt: note: '* | 'rt: warning: '*) say "$line" ;;
    'rt: rt '* | 'rt: running '* | 'rt: nothing has changed since '* | 'rt: '*': begins with what a check kept in '* | *' passed, 0 failed') ;;
    'rt: must-fail '*': refused, as it must be'* | 'rt: '*' must-fail edits were tried by an earlier run on this machine'*) ;;
    'rt: '*': its tests are proved') ;;
    'rt: '*' proved') crate_proved "$name" ;;
    # one that has not changed since is not worth a line
    'rt: '*' is kept: '*) crates_left=$((crates_left - 1)) ;;
    'rt: '*': trying its must-fail edits ('*)
        number=${line##*(}
        crate_tried "$name" "${number%)}"
        ;;
    # of a run for one crate, each that is proved for it
    'rt: chose --jobs '*' for '*)
        proving=${line##* }
        since=$SECONDS
        ;;
    'logic=proved'*)
        [ -z "$proving" ] || say "$proving: proved in $((SECONDS - since)) s"
        proving=
        ;;
    'rt: ok; '* | 'rt: '*' ran'*', and wrote what its file stdout has' | 'rt: '*': its tests passed' | \
        'rt: waiting for '* | 'rt: '*'; waiting for it'* | 'rt: the check was killed, '* | \
        'rt: '*', so each was tried from nothing' | 'rt: '*', so its must-fail edits are tried once more, from nothing')
        say "${line#rt: }"
        ;;
    'rt: '* | *' passed, '*' failed' | 'fn '*': not proved'* | *': error: '* | *': error['* | 'error: '* | 'error['*)
        failed=true
        say "$line"
        ;;
    esac
done 3> "$log"
if $failed; then
    say "$log has all that was printed"
fi
