#!/usr/bin/env bash
# Shows that a slip which is forgotten, or met twice, doesn't build, and that one which is met once does.
# Each case is a program of its own over the library, in a copy of the repository; `rt try` proves nothing,
# but refuses what moves or drops a value wrongly.
set -u
cd "$(dirname "$0")/.." || exit 2
copy=$(mktemp -d) || exit 2
trap 'rm -rf "$copy"' EXIT
tar cf - --exclude='crates/*/out' crates crates.txt | tar xf - -C "$copy" || exit 2
echo "slips: tracker sitting search meaning packed transcript frame words" >>"$copy/crates.txt"
mkdir -p "$copy/crates/slips/src" "$copy/crates/slips/specs"
: >"$copy/crates/slips/specs/Lib.antt"

# The body of a function that has a tracker, a roll and its array, and what the compiler is to say.
try() {
    cat >"$copy/crates/slips/src/main.rt" <<END
#![tactic(auto)]

use frame::refusal::Refusal;
use tracker::roll::Roll;
use tracker::slip::Slip;
use tracker::tracker::Tracker;
use transcript::keys::elapsed::Elapsed;

fn filed(
    tracker: &mut Tracker<'_, Elapsed>,
    roll: &mut Roll,
    array: &mut [Option<Elapsed>],
) -> Result<Option<Slip>, Refusal> {
    let slip = tracker.file(0)?;
    $2
}

fn main() {}
END
    said=$(cd "$copy/crates/slips" && rt try 2>&1)
    if ! grep -qF "$3" <<<"$said"; then
        echo "a slip that is $1: '$3' was not said, but:" >&2
        echo "$said" >&2
        exit 1
    fi
    echo "a slip that is $1: $3"
}

try "handed on" 'Ok(Some(slip))' 'run=ended status=0'
try "met once" 'match roll.meet(array, slip) { Ok(()) => Ok(None), Err((_, slip)) => Ok(Some(slip)) }' 'run=ended status=0'
try "forgotten" 'Ok(None)' 'error[linear-value-let-go]'
try "met, and forgotten where that is refused" 'let _ = roll.meet(array, slip); Ok(None)' 'error[linear-value-let-go]'
try "met twice" 'match roll.meet(array, slip) { Ok(()) => {} Err((_, slip)) => return Ok(Some(slip)) } match roll.meet(array, slip) { Ok(()) => Ok(None), Err((_, slip)) => Ok(Some(slip)) }' 'error[borrow-e0382]'
