#!/usr/bin/env bash
# Runs tools/believed: on a small tree of two crates, of which the list is known; with words that are wrong; and on
# the repository, of which docs/PROMISES.md states how much there is to believe.
#
# It needs no built program. It ends with 1 on a difference, and skips with a line, and ends with 0, where python3 is
# missing.
export LC_ALL=C.UTF-8 PYTHONDONTWRITEBYTECODE=1
cd "$(dirname "$0")/../.." || exit 2
command -v python3 >/dev/null || { echo 'tests/documents/believed.sh: skipped: python3 is not installed'; exit 0; }
room=$(mktemp -d) || exit 2
trap 'rm -rf "$room"' EXIT
passed=0
failed=0

ends() { # WHAT STATUS EXPECTED WORD..
    local what=$1 status=$2 ended
    printf '%s\n' "$3" >"$room/expected"
    shift 3
    tools/believed "$@" >"$room/printed" 2>&1
    ended=$?
    if [ "$ended" -eq "$status" ] && cmp -s "$room/expected" "$room/printed"; then
        passed=$((passed + 1))
    else
        failed=$((failed + 1))
        echo "FAILED $what: status $ended, expected $status; expected <, was >"
        diff "$room/expected" "$room/printed" | head -20
    fi
}

mkdir -p "$room"/tree/crates/{low,top}/{src,specs}
cat >"$room/tree/crates.txt" <<'TREE'
# NAME: what it stands on
low: byteorder
top: low
TREE
cat >"$room/tree/crates/low/src/kind.rt" <<'TREE'
/// A kind.
pub enum Kind {
    /// "One", of two.
    One,
    Two(u8),
}

/// Not reached.
pub struct Other;
TREE
cat >"$room/tree/crates/low/specs/Parts.antt" <<'TREE'
-- The parts of a text.
use Rattle.std.specs.Prelude.{ℕ, List, [], ◌∷◌}
use Rattle.low.specs.declared.kind.Kind.{Kind}
use Rattle.low.specs.declared.kind.Kind.TheVariants as kind
use Rattle.low.proofs.Lemmas.{checked}

-- a part
pub record Part (given : ℕ) : Type 0 where
  pub kind : Kind
  pub first : ℕ

-- Whether it is one, as a list: -- not lone.
abbrev pub many : Kind → List ℕ
many kind.One = 1 ∷ []
many (kind.Two lone) = lone ∷ []

abbrev pub lone : ℕ
lone = 1

infixl 10 ◌+++◌
abbrev pub ◌+++◌ : ℕ → ℕ → ℕ
a +++ b = a
TREE
cat >"$room/tree/crates/top/specs/Top.antt" <<'TREE'
use Rattle.std.specs.Prelude.{ℕ}
use Rattle.low.specs.Parts.{Part, many, lone, ◌+++◌}

pub data Question : Type 0 where
  Whether : ℕ → Question
  Which : Question

abbrev pub asks : Question → ℕ
asks (Whether n) = n +++ n
asks Which = 0

private : (lone : ℕ) → ℕ
private lone = lone

abbrev pub due : ℕ → Part 0
due n = record { first = private n; many = n }
TREE
cat >"$room/tree/crates/top/src/tool.rt" <<'TREE'
ghost use Rattle.top.specs.Top.{due, asks, Whether};

use low::Kind;

/// Runs.
pub fn run(kind: Kind) -> u8
    ensures { result ≡ asks (Whether 1) }
{
    0 // due
}
TREE
ends 'a small tree' 0 'the call: 1, 2 lines
  crates/top/src/tool.rt:6: 2 run
traits: 0, 0 lines
types of the code: 1, 4 lines
  crates/low/src/kind.rt:2: 4 Kind
definitions: 3, 8 lines
  crates/low/specs/Parts.antt:21: 2 ◌+++◌
  crates/top/specs/Top.antt:4: 3 Question
  crates/top/specs/Top.antt:8: 3 asks
names of the kit: 1
  std.specs.Prelude: ℕ
in all: 3 definitions of specs/ with 8 lines, 1 types of the code with 4 lines, and 0 traits of the outside with 0 lines' \
    --top "$room/tree" run
ends 'why' 0 'crates/top/src/tool.rt:6: run
crates/top/specs/Top.antt:8: asks
crates/low/specs/Parts.antt:21: ◌+++◌' --top "$room/tree" --why '◌+++◌' run
ends 'a name that is not reached' 1 'believed: lone is not reached' --top "$room/tree" --why lone run
ends 'a call that is not there' 1 'believed: no pub fn walk in crates/*/src' --top "$room/tree" walk
sed -i 's/, lone/, alone/' "$room/tree/crates/top/specs/Top.antt"
sed -i 's/asks Which = 0/asks Which = alone/' "$room/tree/crates/top/specs/Top.antt"
ends 'a name that is not there' 1 'believed: Rattle.low.specs.Parts: no alone' --top "$room/tree" run
ends 'no repository' 1 "believed: [Errno 2] No such file or directory: 'crates.txt'" --top "$room"
tools/believed --wrong >/dev/null 2>&1
[ $? -eq 2 ] && passed=$((passed + 1)) || { failed=$((failed + 1)); echo 'FAILED: a wrong word is not refused with 2'; }

stated=$(tools/believed --sentence) || stated='what tools/believed prints'
if grep -qF "$stated" docs/PROMISES.md; then
    passed=$((passed + 1))
else
    failed=$((failed + 1))
    echo "FAILED: docs/PROMISES.md has to say: $stated"
fi

echo "tests/documents/believed.sh: $passed passed, $failed failed"
[ "$failed" -eq 0 ]
