"""A repository as small as the gate allows: two proved functions, a program over them, and a test.

It stands here as text, since rt refuses every file of Rattle or antt that stands in no crate.
"""

import shutil

SOURCE, SPECS, LAWS = "crates/sample/src/lib.rt", "crates/sample/specs/Promises.antt", "crates/sample/proofs/Excluded.antt"
ZERO, BEFORE, PART = "crates/sample/must-fail/zero.edit", "crates/sample/must-fail/before.edit", "tests/parts/10-one"

FILES = {
    "crates.txt": """\
sample:
shown: sample
""",
    SOURCE: """\
#![tactic(auto)]

ghost use Rattle.sample.specs.Promises.{Kept, Put};

pub fn keep(x: u8) -> u8
    ensures { Kept x result }
{
    x
}

pub fn put(x: u8, y: u8, out: &mut u8) -> u8
    ensures { Put x y result out.new }
{
    *out = x;
    y
}
""",
    "crates/sample/specs/Lib.antt": """\
pub mod Promises
""",
    SPECS: """\
-- What the functions promise.
use Rattle.std.specs.Prelude.{◌≡◌, ℕ}
use mathlib.Core.Path.{sym, ◌∙◌}

-- sample::keep
abbrev pub Kept : ℕ → ℕ → Type 0
Kept x r = r ≡ x

pub kept_once : {x r r' : ℕ} → Kept x r → Kept x r' → r ≡ r'
kept_once p q = p ∙ sym q

-- sample::put
pub record Put (x y r after : ℕ) : Type 0 where
  pub answer : r ≡ y
  pub lent : after ≡ x

pub put_once : (x y r r' after after' : ℕ) → Put x y r after → Put x y r' after' → (r ≡ r') × (after ≡ after')
put_once x y r r' after after' p q = (p.answer ∙ sym q.answer, p.lent ∙ sym q.lent)
""",
    "crates/sample/proofs/Lib.antt": """\
pub mod Excluded
""",
    LAWS: """\
-- Wrong answers that the promises rule out.
use mathlib.Core.Path.{◌≡◌}
use Prim.Native.Nat.{ℕ}
use native.Mathlib.Omega.{arith}
use Rattle.sample.specs.Promises.{Kept, Put}

pub not_zero : Kept 1 0 → ⊥
not_zero p = let e : ◌≡◌ {A = ℕ} 0 1 = p in omega arith

pub not_unwritten : (r : ℕ) → Put 1 2 r 0 → ⊥
not_unwritten r p = let e : ◌≡◌ {A = ℕ} 0 1 = p.lent in omega arith
""",
    ZERO: """\
# always zero
# refused at: fn keep returns
# harmless:     x + 0
file: src/lib.rt
old:     x
new:     0
""",
    BEFORE: """\
# the other input written
# refused at: fn put returns
# harmless:     *out = x + 0;
file: src/lib.rt
old:     *out = x;
new:     *out = y;
""",
    "crates/shown/src/main.rt": """\
#![tactic(auto)]

use std::io;

fn main(rt: HostRuntime) -> io::Result<()> {
    let kept = sample::keep(1);
    println!(rt; "{kept}")?;
    Ok(())
}
""",
    "crates/shown/stdout": """\
1
""",
    "docs/PROMISES.md": """\
| crate | holds |
|---|---|
| `sample` | two functions |
| `shown` | a program over them |

| function | promise | one answer | wrong answers ruled out |
|---|---|---|---|
| `sample::keep` | `Kept` | `kept_once` | edit:zero, theorem:Excluded.not_zero |
| `sample::put` | `Put` | `put_once` | edit:before, theorem:Excluded.not_unwritten |
""",
    "tests/gate/parts.txt": """\
10-one
""",
    PART: """\
#!/bin/sh
echo '1 passed, 0 failed'
""",
}


def write(folder, root):
    """Writes the sample to a folder, with the gate of the repository at root."""
    shutil.copytree(root / "tests/gate", folder / "tests/gate")
    shutil.copy(root / "test", folder / "test")
    for name, text in FILES.items():
        (folder / name).parent.mkdir(parents=True, exist_ok=True)
        (folder / name).write_text(text, encoding="utf-8")
        (folder / name).chmod(0o755 if text.startswith("#!") else 0o644)
