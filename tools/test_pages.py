"""Tests what the pages say about the commands."""
import re

from testing import COMMANDS, TOP, Case


def page(name: str) -> str:
    """Returns a page as a reader sees it."""
    text = (TOP / name).read_text(encoding="utf-8")
    return (
        text.replace("\\-", "-").replace("\\(aq", "'").replace("\\en", "\\n")
        if name.startswith("man/")
        else text
    )


class Pages(Case):
    """The pages and the help of the commands."""

    def test_lines_for_git_are_the_same_everywhere(self):
        recipes, manual = page("docs/RECIPES.md"), page("man/plistconv-tools.1")
        attributes = "*.plist -text diff=plist"
        for text in (manual, page("man/plistconv.1")):
            self.assertIn(f"\n.B {attributes}\n", text)
        for start, *names in (
            ("git config", "textconv"),
            (re.escape(attributes), "textconv"),
            ("plistconv-staged --install", "staged"),
            ("plistconv-staged --all --print0", "staged", "canonicalise"),
        ):
            line = re.search(f"(?m)^    ({start}.*)$", recipes)[1]
            self.assertRegex(manual, rf"(?m)^(\.B )?{re.escape(line)}$")
            for name in names:
                self.assertIn(f"  {line}\n", self.tool(f"{name} --help").stdout.decode())

    def test_no_printed_command_empties_or_removes_a_file(self):
        pages = ["README.md", "docs/RECIPES.md", "man/plistconv.1", "man/plistconv-tools.1"]
        pages += ["crates/plist_explain/src/refusals.rt", "crates/plist_convert/src/help.rt"]
        texts = {name: page(name) for name in pages}
        texts.update({it: self.tool(f"{it} --help").stdout.decode() for it in COMMANDS})
        changing = r"\brm [A-Za-z]|git checkout|\btouch [A-Z]|> (OUT|key|a)\b|>> \.|from-xml - <"
        readme = re.search("(?s)cd .*?\n## ", texts.pop("README.md"))[0]
        for name, text in {**texts, "README.md": readme.replace("> a.plist", "")}.items():
            self.assertNotRegex(text, changing, name)
        for name in [*pages[4:], "canonicalise"]:
            self.assertIn("plistconv-canonicalise --from-xml -o ", texts[name])

    def test_no_comment_follows_a_command(self):
        for name in ("README.md", "docs/RECIPES.md", "scripts/INSTALL.in"):
            self.assertNotRegex(page(name), r"(?m)^    .*(^| )#", name)

    def test_sample_for_the_framework_has_what_it_needs(self):
        manual, hooks = page("man/plistconv-tools.1"), page(".pre-commit-hooks.yaml")
        lines = r"(?ms)^default_install_hook_types: \[(.*?)]\nrepos:\n(.*?)^\.RE"
        sample = re.search(lines, manual)
        self.assertEqual(sample[1], "pre-commit, pre-merge-commit")
        self.assertIn(re.search("(?m)- id: .*$", hooks)[0], sample[2])
        rev = "\n.B rev\na commit there, no branch: that of the program on the path"
        self.assertIn(rev, manual)

    def test_manual_has_every_option(self):
        manual = page("man/plistconv-tools.1")
        for name in COMMANDS:
            for option in re.findall(r"--[a-z-]+", self.tool(f"{name} --help").stdout.decode()):
                self.assertIn(option, manual, name)

    def test_pages_say_what_converters_of_xml_differ_in(self):
        for name in ("docs/RECIPES.md", "man/plistconv.1"):
            text = " ".join(page(name).split())
            values = "64 bits", "second value", "fraction", "8 bytes", "4 bytes"
            for word in ("CR LF", "base64", "duplicate key", *values):
                self.assertIn(word, text, name)
            words = "plistconv-canonicalise --from-xml", "plistutil -i", "plutil -convert"
            places = [text.index(word) for word in words]
            self.assertEqual(places, sorted(places), name)
            self.assertRegex(text, r"plutil -convert binary1 -o OUT IN .*macOS")
