"""Reading and writing YAML."""

from __future__ import annotations

import random
import unittest
from typing import Any, List

from .support import CLIENT  # noqa: F401  (sets the path of modules)

from wirgatsu import yaml_reader
from wirgatsu.block_yaml import is_block_yaml
from wirgatsu.core_schema import Fraction
from wirgatsu.yaml_reader import YamlError, read_documents
from wirgatsu.yaml_writer import written


def values(text: "str | bytes") -> List[Any]:
    """The values of the documents of a text without faults."""
    documents = list(read_documents("f", text if isinstance(text, bytes) else text.encode()))
    assert not any(document.faults for document in documents), documents[0].faults
    return [document.value for document in documents]


class CoreSchema(unittest.TestCase):
    """Plain scalars are read by YAML 1.2's core schema."""

    CASES = {
        "yes": "yes", "no": "no", "on": "on", "off": "off", "y": "y", "Yes": "Yes", "true": True, "True": True, "TRUE": True, "tRUE": "tRUE",
        "false": False, "null": None, "Null": None, "NULL": None, "~": None, "": None, "nULL": "nULL",
        "12": 12, "-12": -12, "+12": 12, "0": 0, "-0": 0, "07": 7, "0o17": 15, "0o8": "0o8", "0x1f": 31, "0xg": "0xg", "017": 17, "0b11": "0b11",
        "1:30": "1:30", "190:20:30": "190:20:30", "1_000": "1_000", "2026-12-01": "2026-12-01", "2026-12-01T10:00:00Z": "2026-12-01T10:00:00Z",
        "1.5": Fraction("1.5"), ".5": Fraction(".5"), "1.": Fraction("1."), "1e3": Fraction("1e3"), "-1.5E-3": Fraction("-1.5E-3"),
        ".inf": Fraction(".inf"), "-.INF": Fraction("-.INF"), ".nan": Fraction(".nan"), ".": ".", "-": None, "+": "+", "1.2.3": "1.2.3", "e3": "e3",
        "=": "=", "<<": "<<", "18446744073709551616": 18446744073709551616, "'12'": "12", '"true"': "true", "!!str 12": "12", "!!int '12'": 12,
    }

    def test_plain_scalars(self) -> None:
        for text, value in self.CASES.items():
            if text != "-":
                with self.subTest(text):
                    read = values(f"a: {text}\n")[0]["a"]
                    self.assertEqual((type(read), read), (type(value), value))

    def test_long_numbers(self) -> None:
        self.assertEqual(values("a: " + "0" * 9000 + "7\n"), [{"a": 7}])
        self.assertGreater(values("a: " + "9" * 9000 + "\n")[0]["a"], 2**64)
        self.assertLess(values("a: -" + "9" * 9000 + "\n")[0]["a"], -(2**63))

    def test_keys_are_texts(self) -> None:
        self.assertEqual(values("1: a\nnull: b\n1.5: c\ntrue: d\n'': e\n"), [{"1": "a", "null": "b", "1.5": "c", "true": "d", "": "e"}])

    def test_nothing_is_merged(self) -> None:
        document = next(read_documents("f", b"a: &x {b: c}\nd:\n  <<: *x\n"))
        self.assertEqual(document.value, {"a": {"b": "c"}, "d": {"<<": {"b": "c"}}})
        self.assertEqual([str(place) for place, _ in document.warnings], ["f:3:3"])


class Styles(unittest.TestCase):
    """Each style of YAML."""

    CASES = {
        "a: >-\n  one\n  two\n\n  three\n": {"a": "one two\nthree"},
        "a: >\n  one\n    more\n  two\n": {"a": "one\n  more\ntwo\n"},
        "a: |+\n  x\n\nb: c\n": {"a": "x\n\n", "b": "c"},
        "a: |2-\n    x\n": {"a": "  x"},
        "a: one\n  two\n  three\n": {"a": "one two three"},
        "a: 'it''s\n  folded'\n": {"a": "it's folded"},
        'a: "x\\\n  y\\u00e9\\x41\\t\\/"\n': {"a": "xyéA\t/"},
        "{a: 1, b: [c, {d: e}], 'f': \"g\", h}\n": {"a": 1, "b": ["c", {"d": "e"}], "f": "g", "h": None},
        '{"a":1,"b":[true,null]}': {"a": 1, "b": [True, None]},
        "a: [\n  b,\n  c,\n]\n": {"a": ["b", "c"]},
        "a: [b: c, d]\n": {"a": [{"b": "c"}, "d"]},
        "? a\n: b\n? c\n": {"a": "b", "c": None},
        "a: &x b\nc: *x\n&k d: e\n": {"a": "b", "c": "b", "d": "e"},
        "a:\n- b\n- c: d\n  e: f\n- - g\n": {"a": ["b", {"c": "d", "e": "f"}, ["g"]]},
        "%YAML 1.2\n---\na: b\n...\n": {"a": "b"},
        "--- # first\na: b # c\n# d\n": {"a": "b"},
        "--- {a: b}\n": {"a": "b"},
        "a: b#c\n": {"a": "b#c"},
        "a: http://x:80/y?z\n": {"a": "http://x:80/y?z"},
        "a: x\u2028y\u0085z\n": {"a": "x\u2028y\u0085z"},
        "a: \U0001f600\n": {"a": "\U0001f600"},
        "\ufeffa: b\r\nc: d\r\n": {"a": "b", "c": "d"},
        "a: !!map {b: !!seq [c]}\n": {"a": {"b": ["c"]}},
    }

    def test_styles(self) -> None:
        for text, value in self.CASES.items():
            with self.subTest(text):
                self.assertEqual(values(text), [value])

    @unittest.skipUnless(yaml_reader.yaml.__with_libyaml__, "PyYAML stands without libyaml")
    def test_styles_that_need_libyaml(self) -> None:
        self.assertEqual(values("a:\tb\t# c\nd: [\n\te?f]\n"), [{"a": "b", "d": ["e?f"]}])

    def test_documents(self) -> None:
        self.assertEqual(values("a: 1\n---\nb: 2\n...\n---\n# none\n---\nc: 3\n"), [{"a": 1}, {"b": 2}, None, {"c": 3}])

    def test_utf16(self) -> None:
        self.assertEqual(values("a: é\n".encode("utf-16")), [{"a": "é"}])


class Faults(unittest.TestCase):
    """What has no reading is told with its line and column."""

    SYNTAX = {
        b"a: b: c\n": "f:1:5", b"a: 'b\n": "f:2:1", b"a:\n  b\n c: d\n": "f:3:3", b"a: [b\n": "f:2:1", b"a: \x01\n": "f:1:4", b"a: b\n\xff\n": "f:2:1",
        b"a: @b\n": "f:1:4", b"a: *x\n": "f:1:4", b"a\n\tb: c\n": "f:2:3", b"[" * 100000: "f:1:501", b"- " * 100000: "f:1:1001",
        b"a: 1\n---\nb: [\n": "f:4:1", b'a: "\\q"\n': "f:1:5",
    }
    PARTS = {
        b"a: !foo b\n": ("f:1:4", "!foo"), b"a: !!binary eA==\n": ("f:1:4", "!!binary"), b"a: !!int x\n": ("f:1:4", "!!int"),
        b"a: !!set {b}\n": ("f:1:4", "!!set"), b"a: b\na: c\n": ("f:2:1", "stands twice"), b"? [a]\n: b\n": ("f:1:3", "a key must be a text"),
        b"a: &x [*x]\n": ("f:1:4", "refers to what it stands in"),
        b"a: " + b"[" * 130 + b"]" * 130: ("f:1:130", "127 levels"),
    }

    def test_syntax(self) -> None:
        for text, place in self.SYNTAX.items():
            with self.subTest(text[:40]):
                with self.assertRaises(YamlError) as raised:
                    list(read_documents("f", text))
                self.assertEqual(str(raised.exception.place), place, raised.exception.message)

    def test_parts(self) -> None:
        for text, (place, words) in self.PARTS.items():
            with self.subTest(text[:40]):
                faults = next(read_documents("f", text)).faults
                self.assertEqual(str(faults[0][0]), place)
                self.assertIn(words, faults[0][1])

    def test_many_aliases(self) -> None:
        lines = ["a0: &a0 [x, x, x, x, x, x, x, x, x, x]"]
        lines += [f"a{n}: &a{n} [{', '.join([f'*a{n - 1}'] * 10)}]" for n in range(1, 9)]
        faults = next(read_documents("f", "\n".join(lines).encode())).faults
        self.assertIn("1,000,000 parts", faults[0][1])

    def test_places_of_parts(self) -> None:
        document = next(read_documents("f", b"a:\n  b:\n    - c\n    - d: e\n"))
        shown = {path: str(document.place(path)) for path in ((), ("a",), ("a", "b", 1, "d"), ("a", "x"), ("a", "b", 9), ("y",))}
        self.assertEqual(shown, {(): "f:1:1", ("a",): "f:2:3", ("a", "b", 1, "d"): "f:4:10", ("a", "x"): "f:1:1", ("a", "b", 9): "f:2:3", ("y",): "f:1:1"})


class PurePython(unittest.TestCase):
    """What is read without libyaml is what is read with it."""

    def test_same_values(self) -> None:
        loader = yaml_reader._Loader
        for text in list(Styles.CASES) + [f"a: {text}\n" for text in CoreSchema.CASES if text != "-"]:
            with self.subTest(text):
                expected = values(text)
                yaml_reader._Loader = yaml_reader._PurePython
                try:
                    self.assertEqual(values(text), expected)
                finally:
                    yaml_reader._Loader = loader


class Writing(unittest.TestCase):
    """What is written is read again as what it was."""

    TEXTS = ["", "yes", "no", "null", "~", "1", "1.5", "1e3", "0o17", "0x1f", "1:30", "2026-12-01", ".inf", "<<", "=", "- a", "a: b", "# c", "a #b", " a", "a ",
             "a\n", "a\nb", "\na", "a\n\n\n", " a\n b\n", "a\n  b\n c", "\t", "a\tb", "a\r\nb", "\x85", "\u2028", "\ufeff", "é", "\U0001f600", "\x00", "\x7f",
             "'", '"', "\\",
             "true", "{a}", "[a]", "*a", "&a", "!a", "%a", "@a", "`a", "|", ">", "?", "? a", ":", "-", "---", "...", "a\n---\nb", "x" * 300, "word " * 60,
             "a\n\tb\n", "  \n a"]

    def test_texts(self) -> None:
        for text in self.TEXTS:
            with self.subTest(text):
                self.assertEqual(values(written({"a": text, text: "b", "c": [text]})), [{"a": text, text: "b", "c": [text]}])

    def test_drawn_values(self) -> None:
        drawn = random.Random(7)
        for _ in range(500):
            value = {"root": self._value(drawn, 4)}
            self.assertEqual(values(written(value)), [value])

    def _value(self, drawn: random.Random, levels: int) -> Any:
        kind = drawn.randrange(8 if levels else 5)
        if kind < 3:
            return "".join(drawn.choice(" \n\tabc:-#'\"\\{}[],&*!|>%@é\u2028") for _ in range(drawn.randrange(12)))
        if kind == 3:
            return drawn.choice([None, True, False, drawn.randrange(-2**63, 2**64)])
        if kind == 4:
            return drawn.choice(self.TEXTS)
        if kind == 5:
            return [self._value(drawn, levels - 1) for _ in range(drawn.randrange(4))]
        return {drawn.choice(self.TEXTS) + str(key): self._value(drawn, levels - 1) for key in range(drawn.randrange(4))}


class BlockYaml(unittest.TestCase):
    """Which texts go to the shelf as they are."""

    TAKEN = ["a: b\n", "a:\n  - b\n  - c: 'd'\n", "a: [b, 'c']\n", "a: {}\nb: []\n", "a: |\n  x\n  y\nb: |-\n  z\n", "---\na: b # c\n---\nd: 12\n",
        'a: "x\\u00e9"\n']
    BEYOND = ["a: >-\n  b\n", "a: {b: c}\n", "a: &x b\nc: *x\n", "a: b\n  c\n", "a: [b, [c]]\n", "a: [b,\n  c]\n", "a: [b,]\n", "a: 1.5\n", "a: 0x1f\n",
        "a: !!str b\n",
              "%YAML 1.2\n---\na: b\n", "a: b\n...\n", "? a\n: b\n", "a:\tb\n", 'a: "\\x41"\n', "a: |2\n    x\n", "", "# none\n", "a: 'b\n  c'\n", "a: b: c\n"]

    def test_both(self) -> None:
        self.assertEqual([text for text in self.TAKEN if not is_block_yaml(text)], [])
        self.assertEqual([text for text in self.BEYOND if is_block_yaml(text)], [])


if __name__ == "__main__":
    unittest.main()
