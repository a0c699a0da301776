#!/usr/bin/env python3
"""Tries scripts/docs.py on made-up pages: python3 scripts/test_docs.py"""
import unittest

import docs

PAGE = docs.TOP / "docs" / "PROOFS.md"
CRATES = [crate for crate in docs.USES if crate not in docs.TESTS]


class Docs(unittest.TestCase):
    def test_names_that_exist_are_accepted(self):
        spans = "`plist_value` `make test` `fuzz/rows.py` `laws::headline` `crates/NAME/gone` `fits: limits` `a/b`"
        self.assertEqual([], list(docs.page_faults(PAGE, spans)))

    def test_names_that_do_not_exist_are_found(self):
        names = "`plist_gone` `fuzz/gone.py` `laws::gone` `Gone.antt` `put_gone`".split()
        for text in [*names, "`make gone`", "`fits: gone`", "[it](gone.md)", "[it](#gone)"]:
            with self.subTest(text):
                self.assertEqual(1, len(list(docs.page_faults(PAGE, text))))

    def test_crates_above_what_they_use_are_found(self):
        found = list(docs.layer_faults("    top    plistconv, plist_value\n"))
        self.assertLessEqual(len(CRATES), len(found))

    def test_files_without_the_name_of_a_refusal_are_found(self):
        text = docs.read("CONTRIBUTING.md").replace("`fuzz/oracle.py`", "`completions/test`")
        self.assertEqual([], list(docs.refusal_faults(docs.read("CONTRIBUTING.md"))))
        self.assertIn("completions/test: no refusal Cycle", list(docs.refusal_faults(text)))
        text = text.replace("**A new refusal** needs", "**A new one** needs")
        self.assertIn(
            "CONTRIBUTING.md: no list of what a new refusal needs", docs.refusal_faults(text)
        )


if __name__ == "__main__":
    unittest.main()
