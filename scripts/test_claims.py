#!/usr/bin/env python3
"""Tries scripts/claims.py on a tree of two crates: python3 scripts/test_claims.py"""
from __future__ import annotations

import contextlib
import io
import tempfile
import unittest
from pathlib import Path

import claims

SIZES = "crates/high/src/sizes.rt"
PAGE = "docs/PROOFS.md"
FILES = {
    "crates.txt": "low:\nhigh staticlib: low clap\n",
    "crates/low/src/lib.rt": """//! Kinds.
impl<'a, T: Into<u8>> PartialEq
    for Kind<'a, T>
{
    ghost eq = { same_kind };

    fn eq(&self, other: &Self) -> bool {
        true
    }
}

/// Nothing calls it.
fn law()
    ensures { True }
{}
""",
    SIZES: """//! Sizes.
use clap::Command;

pub trait Measure {
    ghost measure: { Self → ℕ };

    /// The least one.
    fn least(&self) -> u64
        ensures { result ≤ measure self.now };
}

impl Kind {
    pub(crate) fn of(self) -> u64
        ensures of { result ≡ 0 }
    {
        0
    }

    pub fn none(self) -> u64 {
        0
    }
}

/// The law.
pub fn law()
    ensures { Law }
{}

/// The measure, at most `MOST`.
pub extern "C" fn measured<M: Measure>(
    it: &M,
) -> u64
    requires { M.measure it.now ≤ MOST }
    // The measure itself.
    ensures measure { result ≡ M.measure it.now
        where n = 0 }
    // Its kind.
    ensures kind { IsKind it }
{
    it.least()
}
""",
    PAGE: """# Proofs

## Sizes

promise | contract
---|---
every function is safe | —
equal trees have equal sizes | `law`
it is the measure | `high::measured: measure`, `Measure::least`
kinds are equal by content | `Kind as PartialEq`, `Kind::of: of` (private)

## Only tested

- Speed.

## Premises

Memory, and `clap`.
""",
}
PRINTED = """
crates/high/src/sizes.rt:30
pub extern "C" fn measured<M: Measure>(
    it: &M,
) -> u64
    requires { M.measure it.now ≤ MOST }
    // The measure itself.
    ensures measure { result ≡ M.measure it.now
        where n = 0 }

crates/high/src/sizes.rt:8
    fn least(&self) -> u64
        ensures { result ≤ measure self.now };

# kinds are equal by content
"""
# What is said when a text of a file is another one.
FAULTS = [
    (PAGE, "`law`", "`laws`", "PROOFS.md:8: 0 items are laws"),
    (PAGE, "`law`", "`low::law`", "PROOFS.md:8: law is private"),
    (PAGE, "`law`", "law", "PROOFS.md:8: not SENTENCE | CONTRACT"),
    (PAGE, "`law`", "`a law`", "PROOFS.md:8: `a law` does not name a contract"),
    (PAGE, "`law`", "`law`, `Kind::none`", "PROOFS.md:8: none has no clause"),
    (PAGE, "`law`", "`law` (private)", "PROOFS.md:8: law is not private"),
    (PAGE, "of` (private)", "of`", "PROOFS.md:10: of is private"),
    (PAGE, "high::measured", "low::measured", "PROOFS.md:9: 0 items are low::measured"),
    (PAGE, "as PartialEq", "as Eq", "PROOFS.md:10: 0 items are Kind"),
    (SIZES, "ensures measure", "ensures other", "PROOFS.md:9: measured has no clause measure"),
    (SIZES, "pub trait", "trait", "PROOFS.md:9: least is private"),
    ("crates/low/src/lib.rt", "fn law", "pub fn law", "PROOFS.md:8: 2 items are law"),
    (PAGE, "`clap`", "clap", "the premises in PROOFS.md do not name `clap`"),
    (PAGE, "## Only tested", "## Other", "PROOFS.md has no section Only tested"),
]


class Claims(unittest.TestCase):
    def printed(self, status: int, changes: dict[str, str], *arguments: str) -> str:
        """Runs the script on the tree with these changes; returns what it prints."""
        with tempfile.TemporaryDirectory() as folder:
            for name, text in {**FILES, **changes}.items():
                (Path(folder) / name).parent.mkdir(parents=True, exist_ok=True)
                (Path(folder) / name).write_text(text, encoding="utf-8")
            out = io.StringIO()
            with contextlib.redirect_stdout(out), contextlib.redirect_stderr(io.StringIO()):
                self.assertEqual(status, claims.main([*arguments], Path(folder)), out.getvalue())
        return out.getvalue()

    def test_contracts_that_exist_are_accepted_and_printed(self) -> None:
        self.assertEqual("claims: 0 faults\n", self.printed(0, {}))
        self.assertIn(PRINTED, self.printed(0, {}, "--print"))

    def test_what_does_not_exist_is_said(self) -> None:
        for name, old, new, said in FAULTS:
            with self.subTest(new):
                self.assertIn(old, FILES[name])
                printed = self.printed(1, {name: FILES[name].replace(old, new, 1)})
                self.assertIn(said, printed)
                self.assertIn("claims: 1 faults", printed)


if __name__ == "__main__":
    unittest.main()
