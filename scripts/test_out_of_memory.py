#!/usr/bin/env python3
"""Tries scripts/out_of_memory.py on a tree of one crate: python3 scripts/test_out_of_memory.py"""
from __future__ import annotations

import tempfile
import unittest
from pathlib import Path

import out_of_memory

CODE = """//! Writes, and may answer AllocError.
use std::alloc::{AllocError, Global};

/// OutOfMemory at any time.
pub enum Fault {
    Full,
    OutOfMemory { sent: u64 },
}

impl From<AllocError> for Fault {
    ghost from_gives = { λ _ fault. fault ≡ OutOfMemory 0 };

    fn from(_error: AllocError) -> Fault {
        Fault::OutOfMemory { sent: 0 }
    }
}

impl<'a, W: Sink> Output<'a, W> {
    fn put(&mut self, octet: u8) -> Result<(), AllocError>
        ensures memory { IfErr result (λ error. error ≡ AllocError) }
    {
        let closes = b'}'; // not { OutOfMemory
        Ok(self.octets.push(octet)?)
    }

    fn named(&self, put: Result<(), AllocError>) -> Result<(), Fault> {
        match put {
            Err(AllocError) => Err(Fault::OutOfMemory { sent: self.sent }),
            _ => Ok(()),
        }
    }

    fn growing(&mut self, piece: &[u8]) -> Result<(), DeviceFault> {
        if self.octets.extend_from_slice(piece).is_err() {
            return Err(DeviceFault);
        }
        Ok(())
    }
}
"""
LIST = """# A list.

crates/low/src/lib.rt | From<AllocError> for Fault: from | named | Fault::OutOfMemory { sent: 0 }
crates/low/src/lib.rt | Output<'a, W>: growing | in memory | if self.octets.extend_from_slice(piece).is_err() { return Err(DeviceFault);
"""
ARM, WHOLE = "_ => Ok(())", "    fn named("
# Lines that make 60 in `put`.
PUT = [
    "return Err(AllocError);",
    "if octet > 9 { return Err(AllocError); }",
    "to_u32(octet)?;",
    "self.needs_memory = octet > 9;",
    "tell(sent, needs_memory)",
    "Fault::OutOfMemory { sent: 0 }",
    "Err(DeviceFault)",
]
# Lines that ask for memory in `put`.
SIZES = [
    "self.octets.reserve(usize::MAX / 4)?;",
    "self.octets.try_reserve_exact(octet)?;",
    "self.octets.resize(octet, 0)?;",
    "let octets = Vec::with_capacity(alloc, octet)?;",
    "let map = IndexMap::with_capacity_and_hasher(alloc, octet, hasher)?;",
    "let octets = vec![in alloc; 0; octet]?;",
    "piece.repeat(alloc, octet)?;",
]
# What is said of code that has the last text in place of the one before.
REFUSED = [
    ("put makes 60 by hand", "push(octet)?", "push(octet).map_err(|_| AllocError)?"),
    ("named makes 60 by hand: _ => Err(", ARM, "_ => Err(Fault::OutOfMemory { sent: 0 })"),
    ("named makes 60 by hand", "Err(AllocError) =>", "Err(AllocError) | Ok(()) =>"),
    ("named makes 60 by hand", ARM, "_ => 60"),
    ("named makes 60 by hand", ARM, "Ok(()) if put != AllocError => Err(AllocError)"),
    ("named makes 60 by hand", ARM, "Err(AllocError) => Err(AllocError), _ => Err(AllocError)"),
    ("nothing makes 60", WHOLE, "    fn nothing() {\n        Err(AllocError)\n    }\n\n" + WHOLE),
    ("from makes 60 by hand", "sent: 0 }", "sent: 0 };\nFault::OutOfMemory { sent: 0 }"),
    ("- makes 60 by hand: use", "use std", "use std::alloc::AllocError as Other;\nuse std"),
]
GROWING = "if self.octets.extend_from_slice(piece).is_err() {"


class OutOfMemory(unittest.TestCase):
    def differences(self, old="", new="", listed=LIST, crate="low"):
        """Returns the differences of a tree in which the code has `new` in place of `old`."""
        self.assertIn(old, CODE)
        with tempfile.TemporaryDirectory() as folder:
            tree = Path(folder)
            for name, text in {
                f"crates/{crate}/src/lib.rt": CODE.replace(old, new, 1),
                "scripts/out_of_memory.txt": listed,
            }.items():
                (tree / name).parent.mkdir(parents=True)
                (tree / name).write_text(text, encoding="utf-8")
            return out_of_memory.differences(tree)

    def test_comments_clauses_types_and_other_names_of_60_are_no_lines(self):
        self.assertEqual(self.differences(), [])

    def test_lines_that_make_60_are_found(self):
        start = "        Ok(self.octets"
        added = [(f"put makes 60 by hand: {it}", start, f"        {it}\n{start}") for it in PUT]
        added += [(f"put asks for memory: {it}", start, f"        {it}\n{start}") for it in SIZES]
        for said, old, new in [*added, *REFUSED]:
            with self.subTest(new):
                found = self.differences(old, new)
                self.assertEqual(len(found), 1, found)
                self.assertIn(said, found[0])

    def test_the_condition_of_a_listed_line_is_listed(self):
        for new in (
            GROWING.replace("if", "if full ||"),
            "if is_long\n            || full\n        {",
        ):
            made, gone = self.differences(GROWING, new)
            self.assertIn("growing makes 60 by hand: if ", made)
            self.assertIn("not in the code: crates/low/src/lib.rt | Output<'a, W>: growing", gone)

    def test_a_listed_line_that_is_gone(self):
        line = LIST.split("\n")[2]
        for gone in (line, line.replace("from |", "into |")):
            found = self.differences(listed=LIST + gone)
            self.assertEqual(len(found), 1, found)
            self.assertIn("not in the code", found[0])
        with self.assertRaises(ValueError):
            self.differences(listed="crates/low/src/lib.rt | from | Fault::OutOfMemory\n")

    def test_tests_are_passed_over(self):
        self.assertEqual(self.differences(listed="", crate="plist_tests"), [])


if __name__ == "__main__":
    unittest.main()
