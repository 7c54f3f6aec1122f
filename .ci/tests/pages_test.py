"""What the checks of pages say of damaged ones, and of words that they don't know."""
import unittest

from gate import TOP
from gate.__main__ import checks
from gate.figures import is_ratio
from gate.printing import filled, first_difference
from tests.copies import changed, damaged, told

CHECK = "--check"

# A check with its words; the file that is damaged, what stands there, and what comes in its place;
# and what is told.
DAMAGES = (
    ("book", CHECK, "docs/book.md", "one process", "two processes", "docs/book.md: line"),
    ("book", CHECK, "crates/network_core/specs/Ran.antt", "pub record Ran ", "pub record Run ",
     "Ran is gone"),
    ("book", CHECK, "crates/network_core/specs/Headline.antt", "≤ 1024 → IsAnswerable",
     "≤ 1024 → IsLawful", "network_core/Headline/IsAnswerable"),
    ("book", CHECK, "crates/forwarding/src/in_flight.rt", "    ghost view = ", "    ghost look = ",
     "has no view of PacketInFlight"),
    ("sentence", "", "README.md", "refused by no router", "refused by a router", "other words"),
    ("sentence", "", "docs/headline.md", "In every interleaving", "In each", "stands 0 times"),
    ("refusals", CHECK, "docs/refusals.md", "| 94 | BadMac |", "| 95 | BadMac |", "line"),
    ("refusals", CHECK, "docs/router.md", "92 WrongIngress", "92 WrongEgress", "92 WrongEgress"),
    ("refusals", CHECK, "README.md", "100 LinkDown", "101 LinkDown", "101 LinkDown is no number"),
    ("refusals", CHECK, "crates/network_core/specs/Fault.antt", "(134, codes", "(140, codes",
     "140 is BadLine and TimeBack"),
    ("refusals", CHECK, "crates/network_core/src/fault.rt", "    TimeBack,", "    BackInTime,",
     "EventFault has no TimeBack"),
    ("wrong_bodies", "", "docs/wrong-bodies.md", "`skips_authenticator` of", "`skips` of",
     "skips of router_step, which is no edit"),
    ("wrong_bodies", "", "crates/router_step/src/checks.rt", "if !is_mac_right(", "if !is_right(",
     "skips_authenticator.edit changes what is in crates/router_step/src/checks.rt 0 times"),
    ("wrong_bodies", "", "crates/isd_as/must-fail-by-hand/accepts_long_decimal_as.edit",
     "# breaks:", "# by:", "does not begin with '# breaks:'"),
    ("pages", CHECK, "docs/headline.md", "## Line by line", "## Word by word",
     "book.md: ../../docs/headline.md#line-by-line"),
    ("pages", CHECK, "crates/router_step/must-fail/skips_authenticator.edit", "# refused:", "# by:",
     "does not begin with '# breaks:'"),
    ("pages", CHECK, "crates/network_core/specs/Ran.antt", "pub record Ran ", "pub record Run ",
     "Ran is gone"),
    ("crates", CHECK, "docs/crates.md", "  json_fields --> refusal\n", "", "crates.md: line"),
    ("crates", CHECK, "crates.txt", "\ninbox", "\noutbox", "differ"),
    ("crates", CHECK, "crates/path_report/README.md", "policy: &words", "policies: &words",
     "shows code that"),
    ("crates", CHECK, "crates/inbox/README.md", "# `inbox`: ", "# inbox: ", "does not begin with"),
    ("examples", CHECK, "examples/row.txt", '"exp":63', '"exp":64', "networks.rt: line"),
    ("examples", CHECK, "crates/scionet/stdin", '"exp":63', '"exp":64', "scionet/stdin: line"),
    ("lines", CHECK, "docs/lines.md", "| `tick` | 134 TimeBack |", "| `tick` | 131 NotInFlight |",
     "docs/lines.md: line"),
    ("lines", CHECK, "crates/commands/src/words.rt", "  tick now ", "  tick then ",
     "words.rt: line"),
    ("lines", CHECK, "crates/event_lines/src/line.rt", "// the packet is lost | `ok`",
     "// the packet is lost", "says above 'lose'"),
    ("line_words", "", "docs/lines.md", "`segment new`", "`segment fresh`", "segment fresh"),
    ("line_words", "", "docs/lines.md", '"xor":3', '"xorr":3', "xorr"),
    ("line_words", "", "docs/lines.md", "`at`, `xor`", "`at`, `or`", "members of alter"),
    ("line_words", "", "docs/lines.md", "`flight N dropped`", "`flight N fell`", "reply 'fell'"),
    ("line_words", "", "docs/lines.md", "| `routers` |", "| `router_count` |", "router_count"),
    ("router", "", "docs/router.md", "| 4 | The hop", "| 5 | The hop", "steps"),
    ("router", "", "docs/router.md", "| 92 WrongIngress |", "| 93 WrongIngress |", "step 3"),
    ("router", "", "docs/router.md", "97 SwitchInside, 93, 94", "97 SwitchInside, 93, 95",
     "step 9"),
    ("figures", "", "docs/gate.md", "some 40,000 packets", "some 400,000 packets",
     "there are 44,000"),
    ("figures", "", "README.md", "[thirteen steps]", "[ten steps]", "is ten"),
    ("figures", "", "docs/gate.md", "| all | 111 |", "| all | 133 |", "is 133, not 11"),
    ("figures", "", "docs/gate.md", "| `inbox` | 0.5 | 1.3 |", "| `outbox` | 0.5 | 1.3 |",
     "differ"),
    ("figures", "", "docs/speed.md", "| 6,706 | 6,482 | 1.03 |", "| 6,706 | 6,482 | 1.14 |",
     "no ratio"),
    ("figures", "", "docs/speed.md", "| ratio | | 1.20 |", "| ratio | | 1.27 |", "no ratio"),
    ("figures", "", "docs/speed.md", "| requests of one path | 40,000 |",
     "| requests of one path | 4,000 |", "requests of one path: has"),
    ("figures", "", "crates/path_report/README.md", "the first ten of the",
     "the first eight of the", "is eight, and there are 10"),
    ("figures", "", "README.md", "# Sipehuka", f"# Sipehuka {'once more ' * 50}", "above 1,200"),
    ("figures", "", "docs/questions.md", "# What a", f"# {'What? ' * 2000}", "above 256,000"),
    ("figures", "", "docs/lines.md", "more than 4,096 links", "more than 4,069 links", "is 4,069"),
    ("figures", "", "docs/check-it.md", "tries the five edits", "tries the nine edits",
     "is nine, and there are 5"),
    ("figures", "", "docs/DECISIONS.md", "has about 3,100,", "has about 1,300,",
     "is 1,300, and there are"),
    ("links", "", "README.md", "(docs/lines.md)", "(docs/line.md)", "README.md: docs/line.md"),
    ("links", "", "docs/tutorial.md", "(row.svg)", "(rows.svg)", "tutorial.md: rows.svg"),
    ("links", "", "docs/headline.md", "book.md#part-0-the-first-hour", "book.md#part-3",
     "headline.md: book.md#part-3"),
    ("names", "", "docs/headline.md", "`work_lines::work_lines`", "`work_lines::work_rows`",
     "headline.md: work_rows"),
    ("rows", "", "cases/ROWS.md", "`networks: three ASes in a row`", "`networks: three in a row`",
     "networks: three in a row is not there"),
    ("host_numbers", "", "include/scion.h", "SCION_BAD_MAC = 94", "SCION_BAD_MAC = 95",
     "BAD_MAC is 95, not 94"),
    ("host_numbers", "", "bindings/js/scion.mjs", "  BAD_MAC: 94,", "  BAD_MAC: 93,",
     "Code in JavaScript: BAD_MAC is 93, not 94"),
    ("kit", "", "README.md", "rattle-kit-", "rattle-box-", "README.md does not have"),
    ("kit", "", "crates/commands/src/words.rt", "in the logic ", "in logics ", "words.rt does not"),
    ("kit", "", "docs/check-it.md", "sum=dac8208d650f15bf", "sum=dac8208d650f15be",
     "check-it.md has"),
)


class Pages(unittest.TestCase):
    def test_what_is_whole(self) -> None:
        for check, words in dict.fromkeys((row[0], row[1]) for row in DAMAGES):
            with self.subTest(check):
                status, said = told(check, *filter(None, [words]))
                self.assertEqual(status, 0, said)

    def test_what_is_damaged(self) -> None:
        for check, words, path, old, new, wanted in DAMAGES:
            with self.subTest(f"{check}: {path}: {new}"), damaged(changed(path, old, new)):
                status, said = told(check, *filter(None, [words]))
                self.assertEqual(status, 1, said)
                self.assertIn(wanted, said)

    def test_writing(self) -> None:
        """A damaged page is written again as it was."""
        path = "docs/lines.md"
        with damaged(changed(path, "134 TimeBack", "131 NotInFlight")):
            self.assertEqual(told("lines", "--write")[0], 0)
            with open(path, encoding="utf-8") as page:
                self.assertEqual(page.read(), (TOP / path).read_text(encoding="utf-8"))


class Words(unittest.TestCase):
    def test_unknown_words(self) -> None:
        """Each check ends with status 2 at a word that it does not know, and names it."""
        for check in checks():
            for word in ("--chek", "--che"):
                with self.subTest(f"{check} {word}"):
                    status, said = told(check, word)
                    self.assertEqual(status, 2, said)
                    self.assertIn(word, said.splitlines()[-1])

    def test_the_misspelt_word_of_a_damaged_book(self) -> None:
        with damaged(changed("docs/book.md", "one process", "two processes")):
            status, said = told("book", "--chek")
            self.assertEqual(status, 2)
            self.assertIn("unknown word --chek", said)
            self.assertEqual(told("book")[0], 2)
            self.assertEqual(told("book", "--check")[0], 1)


class Texts(unittest.TestCase):
    def test_paragraphs(self) -> None:
        self.assertEqual(filled("a " * 60).splitlines(), [" ".join("a" * 50), " ".join("a" * 10)])
        self.assertEqual(filled("a", "- "), "- a")

    def test_differences(self) -> None:
        self.assertIn("line 2 is 'b', and not 'c'", first_difference("a\nb\n", "a\nc\n"))
        self.assertIn("line 2 is '(the end)'", first_difference("a", "a\nb"))

    def test_ratios(self) -> None:
        self.assertTrue(is_ratio("1,308 million", "1,115 million", "1.17"))
        self.assertFalse(is_ratio("1,308 million", "1,115 million", "1.18"))
        self.assertTrue(is_ratio("27", "not counted", ""))
