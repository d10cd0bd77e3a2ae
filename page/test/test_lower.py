"""How a module with 64-bit addresses becomes one with 32-bit addresses, and what is refused."""
import unittest

from page.module.lower import F64, I32, I64, NotLowered, lowered, sized

HEAD = b"\0asm\1\0\0\0"
# A function of two parameters of 64 bits, with a local of 32 bits. Own locals of its narrow form are the fourth and those after.
TYPES = sized(b"\x01\x60\x02\x7e\x7e\x00")
FUNCTIONS = sized(b"\x01\x00")
OWN, ANOTHER = "03", "04"
WRAP = "a7"
MEMORY = (5, sized(b"\x01\x05\x11\x80\x80\x01"))


def module(*sections: tuple[int, bytes]) -> bytes:
    return HEAD + b"".join(bytes([kind]) + data for kind, data in sections)


def function(code: str, own: tuple[int, ...] = ()) -> bytes:
    """A module of one function with this code, in hexadecimal digits. `own` are the kinds of its own locals."""
    groups = bytes([1 + len(own), 1, I32]) + b"".join(bytes([1, kind]) for kind in own)
    return module((1, TYPES), (3, FUNCTIONS), (10, sized(b"\x01" + sized(groups + bytes.fromhex(code) + b"\x0b"))))


class Lowering(unittest.TestCase):
    def assert_narrow(self, code: str, wanted: str, *own: int) -> None:
        self.assertEqual(lowered(function(code)).hex(), function(wanted, own).hex())

    def assert_refused(self, given: bytes, sentence: str) -> None:
        with self.assertRaises(NotLowered) as refused:
            lowered(given)
        self.assertEqual(str(refused.exception), sentence)


class Accesses(Lowering):
    def test_a_load(self) -> None:
        self.assert_narrow("20 00 28 02 10", f"20 00 {WRAP} 28 02 10")

    def test_a_store(self) -> None:
        self.assert_narrow("20 00 20 01 37 03 00", f"20 00 20 01 21 {OWN} {WRAP} 20 {OWN} 37 03 00", I64)

    def test_stores_of_two_kinds(self) -> None:
        code = "20 00 20 02 36 02 00 20 00 44 00 00 00 00 00 00 f0 3f 39 03 00"
        wanted = "20 00 20 02 21 03 a7 20 03 36 02 00 20 00 44 00 00 00 00 00 00 f0 3f 21 04 a7 20 04 39 03 00"
        self.assert_narrow(code, wanted, I32, F64)

    def test_the_largest_offset(self) -> None:
        self.assert_narrow("20 00 28 02 ff ff ff ff 0f", f"20 00 {WRAP} 28 02 ff ff ff ff 0f")

    def test_an_offset_past_4_gib_is_refused(self) -> None:
        self.assert_refused(function("20 00 28 02 80 80 80 80 10"), "an access with alignment 2 and offset 4294967296")


class WholeMemory(Lowering):
    def test_the_size(self) -> None:
        self.assert_narrow("3f 00", "3f 00 ac")

    def test_growing_with_the_sign_of_what_it_gives(self) -> None:
        self.assert_narrow("20 00 40 00", f"20 00 {WRAP} 40 00 ac")

    def test_filling(self) -> None:
        wanted = f"20 00 20 02 20 01 {WRAP} 21 {ANOTHER} 21 {OWN} {WRAP} 20 {OWN} 20 {ANOTHER} fc 0b 00"
        self.assert_narrow("20 00 20 02 20 01 fc 0b 00", wanted, I32, I32)

    def test_copying(self) -> None:
        wanted = f"20 00 20 01 20 01 {WRAP} 21 {ANOTHER} {WRAP} 21 {OWN} {WRAP} 20 {OWN} 20 {ANOTHER} fc 0a 00 00"
        self.assert_narrow("20 00 20 01 20 01 fc 0a 00 00", wanted, I32, I32)


class OtherInstructions(Lowering):
    def assert_same(self, code: str) -> None:
        self.assert_narrow(code, code)

    def test_a_call_through_a_table(self) -> None:
        self.assert_narrow("20 00 20 01 20 01 11 00 80 80 80 80 00", f"20 00 20 01 20 01 {WRAP} 11 00 00")

    def test_branches(self) -> None:
        self.assert_same("02 40 20 02 0e 01 00 00 0b")

    def test_constants_that_look_like_loads(self) -> None:
        self.assert_same("42 28 1a 44 28 28 28 28 28 28 28 28 1a")

    def test_a_conversion_of_numbers(self) -> None:
        self.assert_same("43 00 00 80 3f fc 00 1a")

    def test_an_instruction_of_vectors_is_refused(self) -> None:
        self.assert_refused(function("fd 0c"), "the instruction 0xfd")

    def test_an_instruction_on_tables_is_refused(self) -> None:
        self.assert_refused(function("fc 10 00"), "the instruction 0xfc 16")


class Sections(Lowering):
    def test_a_memory(self) -> None:
        self.assertEqual(lowered(module(MEMORY)), module((5, sized(b"\x01\x01\x11\x80\x80\x01"))))

    def test_a_table(self) -> None:
        self.assertEqual(lowered(module((4, sized(b"\x01\x70\x05\x02\x02")))), module((4, sized(b"\x01\x70\x01\x02\x02"))))

    def test_functions_in_a_table(self) -> None:
        given, wanted = (sized(b"\x01\x00" + constant + b"\x01\x0b\x01\x07") for constant in (b"\x42", b"\x41"))
        self.assertEqual(lowered(module((9, given))), module((9, wanted)))

    def test_data(self) -> None:
        data = b"\x01\x00\x42\x80\x80\x80\x04\x0b\x02hi"
        self.assertEqual(lowered(module((11, sized(data)))), module((11, sized(data.replace(b"\x42", b"\x41")))))

    def test_the_features_of_the_target_go(self) -> None:
        target = (0, sized(sized(b"target_features") + b"\x01+\x08memory64"))
        self.assertEqual(lowered(module(target, MEMORY)), lowered(module(MEMORY)))

    def test_an_imported_memory_is_refused(self) -> None:
        imported = module((2, sized(b"\x01" + sized(b"host") + sized(b"memory") + b"\x02\x04\x01")))
        self.assert_refused(imported, "an import, memory, that is not a function")

    def test_data_at_2_gib_is_refused(self) -> None:
        far = module((11, sized(b"\x01\x00\x42\x80\x80\x80\x80\x08\x0b\x00")))
        self.assert_refused(far, "a segment whose place is not a number below 2 GiB")

    def test_a_shared_memory_is_refused(self) -> None:
        self.assert_refused(module((5, sized(b"\x01\x07\x01\x01"))), "limits of kind 7")


if __name__ == "__main__":
    unittest.main()
