#!/usr/bin/env python3
"""tests/measure/moved.py on a small made-up repository: each kind of change is said as what it is, and nothing else is said."""
import os
import subprocess
import sys
import tempfile

TOOL = os.path.join(os.path.dirname(os.path.abspath(__file__)), "measure", "moved.py")

FILES = {
    "crates/weights/specs/Lib.antt": "pub mod Weights\n",
    "crates/weights/specs/Weights.antt": """-- Weights.
use Rattle.std.specs.Prelude.{ℕ, ◌+◌, ◌≤◌, ◌≡◌}

-- twice a weight
unfoldable pub twice : ℕ → ℕ
twice n = n + n

module _ (limit : ℕ) where
  -- within the limit
  pub record Within (n : ℕ) : Type 0 where
    pub below : n ≤ limit

  pub within-limit : Within limit
  within-limit = record { below = refl }

pub twice-nothing : twice 0 ≡ 0
unfolding twice
twice-nothing = refl
""",
    "crates/weights/src/lib.rt": """// Weights.
#![tactic(auto)]

ghost use Rattle.std.specs.Prelude.{◌≡◌};
ghost use Rattle.weights.specs.Weights.{twice};

pub struct Weight {
    pub grams: u8,
}

impl Weight {
    // twice the weight, with a brace b'{' in its way
    pub fn doubled(self) -> u16
        requires { self.grams ≤ 200 }
        ensures told { result ≡ twice self.grams }
        ensures even { result % 2 ≡ 0 }
    {
        let brace = b'{';
        (self.grams as u16) * 2
    }
}

fn unused(x: u8) -> u8 {
    x
}
""",
    "crates/weights/proofs/Weight/doubled/Answers.antt": "-- a proof\npub returns : goal.returns\nreturns c = omega arith\n",
    "crates/weights/proofs/Weight/doubled/Invariants.antt": "-- no loop\n",
    "crates/still/specs/Lib.antt": "pub mod Still\n",
    "crates/still/specs/Still.antt": "pub still : 0 ≡ 0\nstill = refl\n",
}

SPECS, SOURCE, PROOF = "crates/weights/specs/Weights.antt", "crates/weights/src/lib.rt", "crates/weights/proofs/Weight/doubled/Answers.antt"
STILL = "crates/still/specs/Still.antt"
# (what changes: file, old text, new text), the lines that are to be said of the crate
CASES = [
    ([(SPECS, "twice-nothing = refl", "twice-nothing = cc")], ["theorems of which only the proof moved (1): twice-nothing"]),
    ([(SPECS, "twice 0 ≡ 0", "twice 1 ≡ 2")], ["theorems whose statement moved (1): twice-nothing"]),
    ([(SPECS, "twice n = n + n", "twice n = n + n + 0")], ["definitions moved (1): twice"]),
    ([(SPECS, "n ≤ limit", "n < limit")], ["definitions moved (1): Within"]),
    ([(SPECS, "(limit : ℕ)", "(limit : ℤ)")], ["definitions moved (1): Within", "theorems whose statement moved (1): within-limit"]),
    ([(SPECS, "-- twice a weight", "-- two times a weight")], []),
    ([(SPECS, "pub twice-nothing :", "twice-nothing :")], []),
    ([(SPECS, "twice n = n + n", "twice n =\n    n + n")], []),
    ([(SOURCE, "twice self.grams", "twice self.grams + 0")], ["functions whose contract moved (1): Weight::doubled"]),
    ([(SOURCE, "% 2 ≡ 0", "% 2 ≡ 1")], ["functions whose contract moved (1): Weight::doubled"]),
    ([(SOURCE, "≤ 200", "≤ 100")], ["functions whose contract moved (1): Weight::doubled"]),
    ([(SOURCE, "as u16) * 2", "as u16) * 3")], ["functions of which only the body moved (1): Weight::doubled"]),
    ([(SOURCE, "pub grams: u8", "pub grams: u16")], ["definitions moved (1): Weight"]),
    ([(SOURCE, "unused(x", "used(x")], ["functions gone (1): unused", "functions new (1): used"]),
    ([(PROOF, "omega", "search")], ["proof files moved (1): Weight/doubled/Answers"]),
]


def git(folder, *words):
    command = ["git", "-c", "user.name=test", "-c", "user.email=test@example.org", "-C", folder, *words]
    return subprocess.run(command, check=True, stdout=subprocess.PIPE).stdout.decode().strip()


def commit(folder, files):
    for path, text in files.items():
        os.makedirs(os.path.dirname(os.path.join(folder, path)), exist_ok=True)
        with open(os.path.join(folder, path), "w") as out:
            out.write(text)
    git(folder, "add", "-A")
    git(folder, "commit", "-q", "--allow-empty", "-m", "state")
    return git(folder, "rev-parse", "HEAD")


def said(folder, old, new):
    return subprocess.run([sys.executable, TOOL, old, new], cwd=folder, check=True, stdout=subprocess.PIPE).stdout.decode().splitlines()


def main():
    failures = 0
    with tempfile.TemporaryDirectory() as folder:
        git(folder, "init", "-q")
        base = commit(folder, FILES)
        for changes, expected in CASES:
            files = dict(FILES)
            for path, old, new in changes:
                assert files[path].count(old) == 1, (path, old)
                files[path] = files[path].replace(old, new)
            lines = said(folder, base, commit(folder, files))
            told = [line.strip() for line in lines if line.startswith("  ")]
            heads = [line for line in lines if line.endswith(":")]
            if told != expected or heads != (["weights:"] if expected else []):
                failures += 1
                print(f"expected {expected}, said {told} under {heads}")
            commit(folder, FILES)
        # a theorem that goes to another crate unchanged
        files = dict(FILES)
        files[SPECS] += "\n" + FILES[STILL]
        files[STILL] = "-- nothing is left\n"
        lines = said(folder, base, commit(folder, files))
        if "  theorems that came from still, unchanged (1): still" not in lines:
            failures += 1
            print("\n".join(lines))
        lines = said(folder, base, base)
        if "nothing moved" not in lines or any(line.startswith("  ") for line in lines):
            failures += 1
            print("\n".join(lines))
    print(f"{len(CASES) + 2 - failures} passed, {failures} failed")
    return 1 if failures else 0


if __name__ == "__main__":
    sys.exit(main())
