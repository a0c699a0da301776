"""Tests what the commands take for an answer of the program: nothing but what it prints, with its
status, if it has one."""

import plistconv_tools as tools
from testing import OTHER, TEXT, Case

HALF = '"$PROGRAM" "$@" > "$0.said"; status=$?; head -c %s "$0.said"; exit $status'
# Programs that fail: they say nothing, a part, or something else.
FAULTY = (
    *(f"exit {status}" for status in range(4)),
    "kill -9 $$",
    HALF % "-1",
    HALF % "$(($(wc -c < $0.said) / 2))",
    '"$PROGRAM" "$@"; exit 3',
    *(f"echo hello; exit {status}" for status in range(2)),
    "echo equal; exit 1",
    "echo different; exit 0",
    "echo canonical; exit 0",
    "printf bplist00; exit 0",
    *(f"echo '-: refused 14 DuplicateKey at octet 3'; exit {status}" for status in (0, 1, 5)),
    "echo '-: refused 60 OutOfMemory'; exit 2",
    "echo '-: refused 50 ReadFailed'; exit 4",
    "printf -- '-: refused 14 Dupl'; exit 2",
    "echo '-: refused'; exit 2",
)
# No fault of the file either.
MEMORY = "echo '-: refused 60 OutOfMemory'; exit 5"
# The commands, what they ask of the program, and of which files.
ASKING = (
    ("canonicalise a other", "", ["a", "other"]),
    ("canonicalise -o old a", "", ["a"]),
    ("canonicalise -o new a", "", ["a"]),
    ("canonicalise -", "", ["-"]),
    ("digest --all-lines a other", "", ["a", "other"]),
    ("diff a other", "same", ["a and other"]),
    ("diff a other", "print", ["a", "other"]),
    ("textconv a", "print", ["a"]),
    ("staged --all --print0", "", ["a.plist"]),
)
PRINTED = (
    b'{}|{\n  "a" => {\n  }\n}|[]|[\n  1\n]|<>|<00>|<\n  0a0b\n>|"a \\" b"|""|true|false|0|-5|3.25'
    b"|0.5f|-0.0|infinity|-infinityf|nan <7fc00001>f|-real <fe37e43c8800759c>"
    b"|date 785534062.0 (2025-11-22T19:54:22Z)|date -0.0|date real <4c00000000000000>"
).split(b"|")
NOT_PRINTED = (
    b'{|{\n}|{\n  "a" => 1|[\n  1\n|[\n  1\n}|<0|<\n  0a|"a|a"|hello|tru|0x|nan|real <>|date '
    b"|refused 14 DuplicateKey at octet 3"
).split(b"|")


class Answers(Case):
    """Commands whose program fails."""

    def setUp(self):
        super().setUp()
        self.git("init -q")
        self.files = {"a": TEXT, "other": OTHER, "old": b"old", "a.plist": TEXT}
        self.put_all(self.files)
        self.git("add a.plist")

    def test_what_is_no_answer_is_status_2_and_changes_nothing(self):
        for faulty in (*FAULTY, MEMORY):
            why = "/bin/program ended with status [0-9-]+, without an answer"
            why = why if faulty != MEMORY else "refused 60 OutOfMemory, which says nothing about it"
            for command, asked, names in ASKING:
                script = f'if [ "$1" = "{asked}" ]; then {faulty}; exit; fi\nexec "$PROGRAM" "$@"'
                env = self.program(script)
                with self.subTest(script=script, command=command):
                    run = self.tool(command, status=2, env=env, input=TEXT)
                    lines = [line.split(": ", 2) for line in run.stderr.decode().splitlines()]
                    self.assertEqual([name for _, name, _ in lines], names)
                    for _, _, said in lines:
                        self.assertRegex(said, f"{why}(; (left as it is|not converted))?$")
                    self.assertEqual(run.stdout, b"")
        for name, octets in self.files.items():
            self.assertEqual(self.content(name), octets)
        self.assertFalse((self.folder / "new").exists())
        self.assertFalse([name for name in self.left() if name.startswith(".plistconv-")])

    def judged(self, asked: str, status: int, output: bytes) -> str:
        """Returns whether this is an answer, a refusal, or a program that fails."""
        try:
            self.assertEqual(tools.answer(asked, status, output, False), (status, output))
        except tools.Refused:
            return "refusal"
        except tools.Failed:
            return "failure"
        return "answer"

    def test_answers_are_told_by_what_is_asked(self):
        refused = b"-: refused 14 DuplicateKey at octet 3\n"
        answers = [
            ("", 0, self.canonical(TEXT)),
            ("same", 0, b"equal\n"),
            ("same", 1, b"different\n"),
            *(("print", 0, text + b"\n") for text in PRINTED),
        ]
        for asked, status, output in answers:
            self.assertEqual(self.judged(asked, status, output), "answer", (asked, output))
            for other in range(6):
                if other != status:
                    self.assertEqual(self.judged(asked, other, output), "failure", (asked, other))
            parts = output[:-1], output[: len(output) // 2]
            for wrong in (b"", *parts, output + b"\n", b"hello\n" + output):
                self.assertEqual(self.judged(asked, status, wrong), "failure", (asked, wrong))
            for code, line in (
                (2, refused),
                (2, b"/dev/fd/5: refused 1 TooShort\n"),
                (2, b"-: refused 52 InputTooLarge\n"),
                (5, b"refused 60 OutOfMemory\n"),
                (5, output + b"-: refused 60 OutOfMemory after 7 octets\n"),
            ):
                wanted = "refusal" if code == 2 else "failure"
                self.assertEqual(self.judged(asked, code, line), wanted, (asked, line))
        for text in NOT_PRINTED:
            self.assertEqual(self.judged("print", 0, text + b"\n"), "failure", text)
