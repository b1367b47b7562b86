#!/usr/bin/env bash
# Programs that must not compile: a join on the service that an accepted join gave, and a service in a change that is
# dropped. Each edit in checks/refused-programs/ (file, old text, new text; the old text stands once in that file) is
# applied to a scratch copy of the legal program, crates/lifecycle. The front end must refuse the edited program with
# the error named below, and accept and run the legal one. Nothing is proved here: the compiler refuses these programs
# before any proof, so they cannot be must-fail edits of a crate.
set -euo pipefail
cd "$(dirname "$0")/.."
scratch=$(mktemp -d)
trap 'rm -rf "$scratch"' EXIT
tar --exclude=out -cf - crates crates.txt | tar -xf - -C "$scratch"
program=$scratch/crates/lifecycle

# what the program writes goes to the first file, what rt says of it to the second
try() { (cd "$program" && rt try </dev/null >"$scratch/written" 2>"$scratch/said"); }
fail() { echo "refused-programs: $1" >&2; cat "$scratch/said" >&2; exit 1; }

try && cmp -s "$scratch/written" crates/lifecycle/stdout || fail "the legal program does not run"
for edit in checks/refused-programs/*.edit; do
    name=$(basename "$edit" .edit)
    case $name in
        drop-in-a-change) error='error\[linear-value-let-go\]: `moving` is let go' ;;
        join-in-a-change) error='error\[unknown-method\]: no method named `join` found for type `Moving<P>`' ;;
        *) fail "$name: no error is named for it" ;;
    esac
    cp crates/lifecycle/src/main.rt "$program/src/main.rt"
    python3 - "$edit" "$program" <<'PYTHON'
import sys
lines = dict(line.split(": ", 1) for line in open(sys.argv[1]).read().splitlines())
path = f"{sys.argv[2]}/{lines['file']}"
text = open(path).read()
assert text.count(lines["old"]) == 1, "the old text must stand once"
open(path, "w").write(text.replace(lines["old"], lines["new"]))
PYTHON
    ! try || fail "$name is accepted"
    grep -q "$error" "$scratch/said" || fail "$name is not refused for what it does"
    echo "refused-programs: $name is refused"
done
echo "refused-programs: the legal program runs, and both others are refused"
