"""Tests of the package: the stored cases of the repository, errors, refusals, threads, and the header."""

import ctypes
import pathlib
import re
import subprocess
import sys
import tempfile
import textwrap
import threading
import time
import unittest

from cases import stored

import rnix
from rnix import __main__ as printer
from rnix import ast, errors, library, messages

BINDINGS = pathlib.Path(__file__).resolve().parents[2]


def kept(text: str) -> str:
    """Returns what formatting keeps of a text: all but white space, commas and the marks of comments."""
    return re.sub(r"[\s,#/*]", "", text)


class StoredCases(unittest.TestCase):
    def test_trees_are_those_of_nix_tree(self):
        count = 0
        for text, wanted in stored("trees"):
            self.assertEqual("".join(printer.lines(rnix.parse(text))), wanted, text)
            count += 1
        self.assertGreater(count, 2000)

    def test_tokens_are_those_of_the_tokenizer(self):
        for text, wanted in stored("tokens"):
            found = "".join(f"{token.kind} {token.end - token.start}\n" for token in rnix.tokenize(text))
            self.assertEqual(found, wanted, text)

    def test_strings_have_the_stored_parts(self):
        for text, wanted in stored("strings"):
            found = ""
            for part in rnix.parts(rnix.parse(text).root.expr):
                name, said = ("literal", part) if isinstance(part, str) else ("interpolation", part.text)
                found += f"{name} {len(said.encode())}\n{said}\n"
            self.assertEqual(found, wanted, text)

    def test_walks_agree_with_each_other(self):
        for text, _ in list(stored("trees"))[::17]:
            tree = rnix.parse(text)
            elements = list(tree.root.walk())
            tokens = list(tree.root.find(rnix.Token))
            self.assertEqual(tokens, [element for element in elements if isinstance(element, rnix.Token)])
            self.assertEqual(list(tree.root.find("NODE_IDENT")), [element for element in elements if element.kind == "NODE_IDENT"])
            self.assertEqual("".join(token.text for token in tokens), tree.text)
            for token in tokens:
                self.assertTrue(all(tree.token_at(offset) == token for offset in range(*token.range)))
            for node in tree.root.find(rnix.Node):
                children = list(node)
                self.assertTrue(all(child.parent == node for child in children))
                for left, right in zip(children, children[1:]):
                    self.assertEqual((left.next_sibling, right.previous_sibling), (right, left))
                self.assertEqual(node.children, [child for child in children if not isinstance(child, rnix.Token)])
                self.assertEqual(node.tokens, [child for child in children if isinstance(child, rnix.Token)])


class Trees(unittest.TestCase):
    def test_elements_tell_what_they_are(self):
        tree = rnix.parse('let a = "ä"; in a')
        root = tree.root
        self.assertEqual((root.kind, root.range, str(root)), ("NODE_ROOT", (0, 18), 'let a = "ä"; in a'))
        self.assertIsNone(root.parent)
        (whole,) = root
        self.assertIsInstance(whole, ast.LetIn)
        (string,) = root.find("NODE_STRING")
        self.assertEqual((string.text, string.range, string.position), ('"ä"', (8, 12), (1, 9)))
        self.assertEqual(tree.position(16), (1, 16))
        self.assertEqual([node.kind for node in string.ancestors][-1], "NODE_ROOT")
        self.assertEqual({child.parent for child in whole}, {whole})
        self.assertEqual(repr(string), "<NODE_STRING@8..12>")

    def test_typed_nodes_have_their_parts(self):
        match rnix.parse("{ a, b ? 1, ... } @ c: rec { x.${y} = a; inherit (d) z; }").root.expr:
            case ast.Lambda(param=ast.Pattern(pat_entries=[first, second], pat_bind=bind), body=ast.AttrSet() as body):
                self.assertEqual([str(first.ident), str(second.default), str(bind.ident)], ["a", "1", "c"])
            case other:
                self.fail(repr(other))
        value, inherit = body.entries
        self.assertEqual([type(attr) for attr in value.attrpath.attrs], [ast.Ident, ast.Dynamic])
        self.assertEqual((str(inherit.source.expr), body.inherits), ("d", [inherit]))
        self.assertIsInstance(value.value, ast.Expr)
        call = rnix.parse("f 1.5").root.expr
        self.assertEqual((str(call.function), call.argument.value), ("f", 1.5))
        self.assertEqual(rnix.parse("!(a -> b)").root.expr.operator, "!")
        self.assertEqual(next(rnix.parse("a -> b").root.find(ast.BinOp)).operator, "->")

    def test_each_kind_of_node_has_its_class(self):
        for name in rnix.KINDS:
            if name.startswith("NODE_"):
                self.assertEqual(next(one for one in vars(ast).values() if getattr(one, "KIND", "") == name).KIND, name)

    def test_errors_tell_what_is_wanted(self):
        (error,) = rnix.parse("a (b").errors
        self.assertEqual(str(error), "unexpected end of file, wanted any of [TOKEN_R_PAREN]")
        self.assertEqual((error.variant, error.range, error.found), ("UnexpectedEOFWanted", None, None))
        self.assertEqual(error.wanted, ("TOKEN_R_PAREN",))
        (error,) = rnix.parse("{ a, a }: a").errors
        self.assertEqual((error.variant, error.range), ("DuplicatedArgs", (5, 6)))
        error = rnix.parse("()").errors[0]
        self.assertEqual((error.found, error.range), ("TOKEN_R_PAREN", (1, 2)))
        wanted = "TOKEN_L_PAREN TOKEN_REC TOKEN_L_BRACE TOKEN_L_BRACK TOKEN_STRING_START TOKEN_IDENT"
        self.assertEqual(error.wanted, tuple(wanted.split()))

    def test_each_error_has_its_text(self):
        text = b"{ a = ; b : } )"
        room = ctypes.create_string_buffer(512)
        said = [str(error) for error in rnix.parse(text).errors]
        for number, message in enumerate(said):
            count = library.LIBRARY.rnix_error_text(text, len(text), number, room, len(room))
            self.assertEqual(room.raw[:count].decode(), message)
        answer = library.LIBRARY.rnix_error_text(text, len(text), len(said), room, len(room))
        self.assertEqual(answer, library.NONE_SUCH)

    def test_strings_and_paths_have_parts(self):
        string = rnix.parse('"a${b}"').root.expr
        text, inner = rnix.parts(string)
        self.assertEqual((text, str(inner.expr), rnix.value(string)), ("a", "b", None))
        self.assertEqual(rnix.value(rnix.parse("''\n  a\n    b''").root.expr), "a\n  b")
        self.assertEqual(list(map(str, rnix.path_parts(rnix.parse("./a/${b}.nix").root.expr))), ["./a/", "${b}", ".nix"])

    def test_other_bytes_and_other_things_are_refused(self):
        for text in (b"\xff", b"a\xc3", "ä".encode("latin-1")):
            self.assertRaises(rnix.Refused, rnix.parse, text)
            self.assertRaises(rnix.Refused, rnix.tokenize, text)
        for thing in (5, None, ["a"]):
            self.assertRaises(TypeError, rnix.parse, thing)
            self.assertRaises(TypeError, rnix.tokenize, thing)

    def test_the_text_and_the_errors_of_a_tree_cannot_be_replaced(self):
        tree = rnix.parse("a (b c)")
        for name, value in (("source", b"x"), ("errors", [])):
            self.assertRaises(AttributeError, setattr, tree, name, value)
        self.assertEqual(tree.reparse((0, 1), "x").text, "x (b c)")

    def test_a_negative_offset_has_no_position(self):
        tree = rnix.parse("a\nb")
        self.assertEqual(tree.position(2), (2, 1))
        self.assertRaises(ValueError, tree.position, -1)

    def test_a_lack_of_memory_is_a_memory_error(self):
        program = textwrap.dedent("""
            import resource
            import rnix
            resource.setrlimit(resource.RLIMIT_AS, (1000 * 2**20, 1000 * 2**20))
            try:
                rnix.parse(b"a " * 15_000_000)
            except MemoryError as error:
                print("MemoryError:", error)
        """)
        ran = subprocess.run([sys.executable, "-c", program], capture_output=True, text=True, timeout=60)
        self.assertEqual((ran.stdout, ran.stderr), ("MemoryError: out of memory\n", ""))

    def test_an_empty_text_has_a_root(self):
        tree = rnix.parse("")
        self.assertEqual((len(list(tree.root.walk())), list(tree.root), rnix.tokenize("")), (1, [], []))
        self.assertEqual(str(tree.errors[0]), "unexpected end of file")
        self.assertIsNone(tree.token_at(0))

    def test_a_megabyte_of_parentheses_is_read(self):
        tree = rnix.parse("(" * 2**20)
        self.assertTrue(any(error.variant == "RecursionLimitExceeded" for error in tree.errors))
        self.assertEqual(sum(isinstance(element, rnix.Token) for element in tree.root.walk()), 2**20)

    def test_four_threads_read_at_once(self):
        text = '{ a = [ 1 (b: c.d or e) "x${y}" ]; }' * 50
        wanted = list(printer.lines(rnix.parse(text)))
        found = []
        threads = [threading.Thread(target=lambda: found.append(list(printer.lines(rnix.parse(text))))) for _ in range(4)]
        for thread in threads:
            thread.start()
        for thread in threads:
            thread.join()
        self.assertEqual(found, [wanted] * 4)

    def test_the_program_answers_a_status(self):
        for text, status in ((b"1 + 2", 0), (b"(", 1), (b"\xff", 2)):
            run = subprocess.run([sys.executable, "-m", "rnix"], input=text, capture_output=True, check=False)
            self.assertEqual(run.returncode, status)


class Batches(unittest.TestCase):
    """Calls that return what a whole text has."""

    def test_all_strings_have_the_parts_that_each_has(self):
        room, parts = ctypes.create_string_buffer(4096), (library.Part * 256)()
        for text, _ in list(stored("trees"))[::23]:
            tree = rnix.parse(text)
            for string in tree.root.find(ast.Str):
                text_len = library.LIBRARY.rnix_string_text(text, len(text), string._number, room, len(room))
                count = library.LIBRARY.rnix_string_parts(text, len(text), string._number, parts, len(parts))
                wanted = [room.raw[part.start : part.end].decode() for part in parts[:count] if not part.is_interpolation]
                found = rnix.parts(string)
                self.assertEqual([part for part in found if isinstance(part, str)], wanted, text)
                self.assertEqual("".join(wanted).encode(), room.raw[:text_len])
                inner = [(part.start, part.end) for part in parts[:count] if part.is_interpolation]
                self.assertEqual([part.range for part in found if not isinstance(part, str)], inner)

    def test_positions_are_those_of_the_library(self):
        for text in ("", "a", "a\nä😀 b\r\n", "\n\n"):
            data = text.encode()
            tree = rnix.parse(data)
            offsets = [len(text[:count].encode()) for count in range(len(text) + 1)]
            at = (library.Position * len(offsets))()
            given = (ctypes.c_uint64 * len(offsets))(*offsets)
            count = library.LIBRARY.rnix_positions(data, len(data), library.CHARS, given, len(offsets), at, len(offsets))
            self.assertEqual(count, len(offsets))
            self.assertEqual([tree.position(offset) for offset in offsets], [(one.line + 1, one.column + 1) for one in at])

    def test_diagnostics_say_what_is_wrong(self):
        (found,) = rnix.diagnostics(rnix.parse('# ä\n{ a = 1 }'))
        self.assertEqual(found.message, 'expected ";" after the value of "a", found "}"')
        self.assertEqual((found.range, found.code, found.severity), ((13, 14), "syntax-error", "error"))
        self.assertEqual(found.notes, (rnix.Note((12, 12), '";" is missing here', rnix.Fix((12, 12), ";")),))
        (found,) = rnix.diagnostics(rnix.parse("[ 1, 2 ]"))
        self.assertEqual(found.notes, (rnix.Note(None, "list items are separated by white space alone", rnix.Fix((3, 4), "")),))
        self.assertEqual(rnix.diagnostics(rnix.parse("1")), [])
        for text, _ in list(stored("trees"))[::41]:
            tree = rnix.parse(text)
            codes = {found.code for found in rnix.diagnostics(tree)}
            self.assertEqual(bool(codes & {"syntax-error", "nested-too-deep"}), bool(tree.errors))

    def test_an_attribute_that_is_defined_again_has_the_place_of_the_first(self):
        (found,) = rnix.diagnostics(rnix.parse("{ a = 1; a = 2; }"))
        self.assertEqual((found.range, found.code, found.severity), ((9, 10), "repeated-attribute", "error"))
        self.assertEqual(found.message, "this attribute is already defined")
        self.assertEqual(found.notes, (rnix.Note((2, 3), "first defined here", None),))

    def test_lints_find_warnings(self):
        text = b"{ version = 1.2.3; timeZone = Europe/Berlin; a = (1); }"
        found = rnix.diagnostics(rnix.parse(text))
        shown = [(one.code, text[slice(*one.range)]) for one in found]
        self.assertEqual(shown, [("called-data", b"1.2.3"), ("bare-path", b"Europe/Berlin"), ("needless-parentheses", b"(1)")])
        self.assertEqual({one.severity for one in found}, {"warning"})
        (note,) = found[2].notes
        self.assertEqual(note.replacement, rnix.Fix((49, 52), "1"))

    def test_notes_belong_to_their_diagnostics(self):
        found = rnix.diagnostics(rnix.parse("{ a = 1; b = 1; a = 2; c = (1); b = 3; }"))
        self.assertEqual([[note.range for note in one.notes] for one in found], [[(2, 3)], [None], [(9, 10)]])

    def test_a_name_that_nothing_uses_is_a_warning(self):
        (found,) = rnix.diagnostics(rnix.parse("let a = 1; unused = a; in a"))
        self.assertEqual((found.range, found.code, found.severity), ((11, 17), "unused-name", "warning"))
        self.assertEqual((found.message, found.notes), ("nothing uses this name", ()))

    def test_a_text_may_have_many_diagnostics(self):
        found = rnix.diagnostics(rnix.parse("[ " + 3000 * '("") ' + "]"))
        self.assertEqual([one.range for one in found], [(5 * number + 2, 5 * number + 6) for number in range(3000)])

    def test_fixes_leave_fewer_errors(self):
        def fixed(text):
            found = rnix.fix(rnix.parse(text), 0)
            source, (start, end) = text.encode(), found.range
            return (source[:start] + found.text.encode() + source[end:]).decode()

        for wrong, right in [("# ä\n{ a = 1 }", "# ä\n{ a = 1; }"), ("[ 1, 2 ]", "[ 1 2 ]"), ("{ a = 'b'; }", '{ a = "b"; }')]:
            self.assertEqual(fixed(wrong), right)
        long = f"'{'a' * 100}'"
        self.assertEqual(fixed(long), long.replace("'", '"'))
        self.assertIsNone(rnix.fix(rnix.parse("{ a = ; }"), 0))
        self.assertIsNone(rnix.fix(rnix.parse("a"), 0))
        self.assertIsNone(rnix.fix(rnix.parse("[ 1, 2 ]"), 1))
        self.assertRaises(ctypes.ArgumentError, rnix.fix, rnix.parse("[ 1, 2 ]"), "0")
        count = 0
        for text, _ in list(stored("trees"))[::41]:
            tree = rnix.parse(text)
            for number in range(len(rnix.diagnostics(tree))):
                found = rnix.fix(tree, number)
                if found is not None:
                    made = tree.source[: found.range[0]] + found.text.encode() + tree.source[found.range[1] :]
                    self.assertLess(len(rnix.parse(made).errors), len(tree.errors))
                    count += 1
        self.assertGreater(count, 5)

    def test_a_text_is_formatted(self):
        self.assertEqual(rnix.formatted("{a=1;# b\n}"), "{\n  a = 1; # b\n}\n")
        self.assertRaises(rnix.FormatError, rnix.formatted, "{a=1")
        self.assertRaises(rnix.Refused, rnix.formatted, b"\xff")
        for text, _ in list(stored("trees"))[::41]:
            tree = rnix.parse(text)
            if not tree.errors:
                made = rnix.formatted(text)
                self.assertEqual(kept(made), kept(tree.text))
                self.assertEqual(rnix.formatted(made), made)

    def test_names_have_their_bindings(self):
        tree = rnix.parse('let a = 1; "b" = a; in with c; { d }: [ a d e ({ inherit b; }) ]')
        names = rnix.resolve(tree)
        self.assertEqual([str(binding.name) for binding in names.bindings], ["a", '"b"', "d"])
        self.assertEqual([type(binding.scope) for binding in names.bindings], [ast.LetIn, ast.LetIn, ast.Lambda])
        self.assertEqual([binding.first for binding in names.bindings], [0, 1, 2])
        wanted = [("a", 0, False), ("c", None, False), ("a", 0, False), ("d", 2, False), ("e", None, True), ("b", 1, False)]
        self.assertEqual([(str(one.name), one.binding, one.is_open) for one in names.references], wanted)
        self.assertEqual([one.is_inherited for one in names.references], [False] * 5 + [True])
        self.assertEqual([one.name.start for one in names.uses(0)], [17, 40])
        for text, _ in list(stored("trees"))[::41]:
            names = rnix.resolve(rnix.parse(text))
            self.assertTrue(all(one.binding is None or one.binding < len(names.bindings) for one in names.references))


class Reparsing(unittest.TestCase):
    def check(self, tree, what, new):
        """Returns the tree after an edit, which must be that of the new text."""
        start, end = what.range if isinstance(what, rnix.Element) else what
        edited = tree.reparse(what, new)
        whole = rnix.parse(tree.source[:start] + new.encode() + tree.source[end:])
        self.assertEqual(edited.source, whole.source)
        self.assertEqual(list(printer.lines(edited)), list(printer.lines(whole)), whole.text)
        self.assertEqual(list(map(str, edited.errors)), list(map(str, whole.errors)))
        return edited

    def test_each_edit_gives_the_tree_of_the_new_text(self):
        text = "# ä\n{ a, b ? [ 1 ] }@c: let d = \"x${e}y\"; in (rec { f = ''\n  g ${{ h = 2; }.h}\n''; }) /* i */ // { j.k = l: m; }"
        tree = rnix.parse(text)
        places = [place for place in range(len(tree.source) + 1) if place == len(tree.source) or tree.source[place] & 0xC0 != 0x80]
        for start in places:
            for end in (start, start + 1, start + 3):
                if end in places:
                    for new in ("", "x", "{", "]", '"', "''", "${", "#", "a = 1; "):
                        self.check(tree, (start, end), new)
        self.assertEqual(tree.text, text)

    def test_stored_texts_are_edited(self):
        for number, (text, _) in enumerate(list(stored("trees"))[::5]):
            tree = rnix.parse(text)
            elements = list(tree.root.walk())
            self.check(self.check(tree, elements[number % len(elements)], "[ a ]"), (0, 0), "(")

    def test_a_node_is_replaced(self):
        tree = rnix.parse("{ a = [ 1 2 ]; }")
        one = next(tree.root.find(rnix.ast.Literal))
        self.assertEqual(self.check(tree, one, "[ ]").text, "{ a = [ [ ] 2 ]; }")

    def test_other_ranges_are_refused(self):
        tree = rnix.parse("aä")
        for bad in [(-1, 0), (1, 0), (0, 4), (2, 3), (2, 2)]:
            self.assertRaises(rnix.EditError, tree.reparse, bad, "")

    def test_a_node_of_another_tree_is_refused(self):
        tree, other = rnix.parse("{ a = 1; }"), rnix.parse("{ b = [ 2 3 4 ]; }")
        self.assertRaises(rnix.EditError, tree.reparse, next(other.root.find("NODE_LIST")), "Z")
        self.assertRaises(rnix.EditError, tree.reparse, rnix.parse("{ a = 1; }").root, "Z")


class Edits(unittest.TestCase):
    def test_a_value_is_replaced_and_all_else_stays(self):
        text = '{ # ä\n  version = "1.0"; }'
        edits = rnix.Edits(text)
        edits.replace(next(rnix.parse(text).root.find(ast.Str)), '"1.1"')
        edits.replace((0, 0), "# new\n")
        self.assertEqual(edits.apply(), '# new\n{ # ä\n  version = "1.1"; }')

    def test_edits_that_do_not_fit_are_refused(self):
        edits = rnix.Edits("aäb")
        edits.replace((0, 1), "x")
        for bad in ((2, 3), (3, 5), (0, 3), (3, 1)):
            self.assertRaises(rnix.EditError, edits.replace, bad, "")
        edits.replace((1, 1), "1")
        edits.replace((1, 1), "2")
        self.assertEqual(edits.apply(), "x12äb")

    def test_a_node_of_another_text_is_refused(self):
        edits = rnix.Edits("{ a = 1 + 222; }")
        self.assertRaises(rnix.EditError, edits.replace, next(rnix.parse("{ b = [ 2 ]; }").root.find("NODE_LIST")), "Z")
        edits.replace(next(rnix.parse("{ a = 1 + 222; }").root.find("NODE_LITERAL")), "2")
        self.assertEqual(edits.apply(), "{ a = 2 + 222; }")

    def test_many_edits_take_no_time_for_each_pair(self):
        count = 16_000
        edits = rnix.Edits("a" * 2 * count)
        started = time.monotonic()
        for number in range(count):
            at = 2 * (number * 7 % count)
            edits.replace((at, at + 1), "b")
        self.assertLess(time.monotonic() - started, 5)
        self.assertEqual(edits.apply(), "ba" * count)

    def test_the_example_updates_pins(self):
        text = b'{\r\n  version = "1.0"; # pinned\r\n  src.hash = "old"; name = "a";\n}\n'
        new = 'a\\b"$${c}'
        with tempfile.TemporaryDirectory() as folder:
            file = pathlib.Path(folder) / "package.nix"
            file.write_bytes(text)
            example = BINDINGS / "python" / "examples" / "pins.py"
            subprocess.run([sys.executable, example, file, "version=1.1", f"src.hash={new}"], check=True)
            updated = file.read_bytes()
        self.assertEqual(updated, text.replace(b"1.0", b"1.1").replace(b"old", rb"a\\b\"$\${c}"))
        self.assertIn(new, [rnix.value(string) for string in rnix.parse(updated).root.find(ast.Str)])

    def test_the_example_of_the_readme_updates_a_version_and_a_hash(self):
        page = (BINDINGS / "python" / "README.md").read_text()
        example = textwrap.dedent(re.search(r"\n\n(    import pathlib\n(?:    .*\n|\n(?=    ))+)", page).group(1))
        with tempfile.TemporaryDirectory() as folder:
            file = pathlib.Path(folder) / "package.nix"
            file.write_text('{ version = "1.0"; # pinned\n  hash = "old"; name = "a"; }\n')
            subprocess.run([sys.executable, "-c", example], cwd=folder, check=True)
            updated = file.read_text()
        self.assertEqual(updated, '{ version = "1.2.0"; # pinned\n  hash = "sha256-AAAA"; name = "a"; }\n')


class Header(unittest.TestCase):
    """`rnix.h` agrees with the library and this package."""

    source = (BINDINGS / "rnix.h").read_text()

    def numbers(self, enum):
        """Returns the names of an enum, without their prefix, and its numbers, which default to the positions."""
        body = re.search(rf"enum {enum} {{(.*?)}};", self.source, re.S).group(1)
        found = re.findall(r"RNIX_(\w+)(?: = (-?\d+))?", body)
        return [(name, int(number or place)) for place, (name, number) in enumerate(found)]

    def test_kinds_have_their_names_and_numbers(self):
        self.assertEqual(self.numbers("rnix_kind"), [(name, number) for number, name in enumerate(library.KINDS)])
        self.assertIn(f"#define RNIX_KINDS (RNIX_{library.KINDS[-1]} + 1u)", self.source)
        for number, name in enumerate(library.KINDS):
            self.assertEqual(library.LIBRARY.rnix_kind_of_name(name.encode(), len(name)), number)
        self.assertEqual(library.LIBRARY.rnix_kind_of_name(b"TOKEN", 5), library.NONE_SUCH)

    def test_codes_have_the_names_of_the_crate(self):
        rules = (BINDINGS.parent / "crates" / "nix_diagnostics" / "src" / "rules.rt").read_text()
        order = re.findall(r"Code::(\w+),", re.search(r"pub const CODES.*?];", rules, re.S).group())
        names = [re.sub(r"(?<!^)([A-Z])", r"-\1", name).lower() for name in order]
        self.assertEqual(list(library.CODES), names)

    def test_variants_and_refusals_have_their_numbers(self):
        named = [(name.replace("_", "").lower(), number) for name, number in self.numbers("rnix_error_variant")]
        self.assertEqual(named, [(name.lower(), number) for number, name in enumerate(errors.VARIANTS)])
        names = ("NOT_UTF8", "NO_MEMORY", "NONE_SUCH", "TOO_LONG", "HAS_ERRORS", "DIFFERENT")
        refusals = [(name, getattr(library, name)) for name in names]
        self.assertEqual(self.numbers("rnix_refusal"), refusals)
        self.assertIn(("CHARS", library.CHARS), self.numbers("rnix_unit"))
        self.assertEqual([(number, name.lower()) for name, number in self.numbers("rnix_severity")], list(messages.SEVERITIES.items()))
        self.assertIn(f"#define RNIX_NOT_WANTED {library.NOT_WANTED}", self.source)

    def test_structs_have_their_sizes(self):
        said = re.findall(r": (\d+) bytes[^*]*\*/\s*struct (rnix_\w+) {|: (\d+) bytes\..*?\*/\s*struct (rnix_\w+) {", self.source, re.S)
        sizes = {name or other: int(size or number) for size, name, number, other in said}
        types = {
            "rnix_token": library.Token,
            "rnix_element": library.Element,
            "rnix_range": library.Range,
            "rnix_note": library.Note,
            "rnix_link": library.Link,
            "rnix_error": library.Fault,
            "rnix_part": library.Part,
            "rnix_string_part": library.StringPart,
            "rnix_position": library.Position,
            "rnix_diagnostic": library.Diagnostic,
            "rnix_fix": library.Fix,
            "rnix_binding": library.Binding,
            "rnix_reference": library.Reference,
        }
        self.assertEqual(sizes, {name: ctypes.sizeof(kind) for name, kind in types.items()})


if __name__ == "__main__":
    unittest.main()
