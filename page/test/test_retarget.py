"""How a module for x86-64 becomes one for wasm64, and what is refused."""
import unittest

from page.module.retarget import LARGE, always_inlined, retarget
from tools.machines.retarget import NeedsX86


def of(*lines: str) -> list[str]:
    """The lines of a module as they are for wasm64."""
    ended = [f"{line}\n" for line in lines]
    return [line.rstrip("\n") for line in retarget(ended, always_inlined(ended)) if line]


class Attributes(unittest.TestCase):
    def test_those_of_the_processor_go(self) -> None:
        group = 'attributes #0 = { nounwind "frame-pointer"="all" "target-cpu"="x86-64" }'
        self.assertEqual(of(group), ["attributes #0 = { nounwind }"])

    def test_a_group_of_those_alone_is_not_empty(self) -> None:
        self.assertEqual(of('attributes #9 = { sanitize_address "frame-pointer"="all" }'), ["attributes #9 = { nounwind }"])

    def test_a_group_of_none_of_them_stays(self) -> None:
        self.assertEqual(of("attributes #1 = { cold noreturn }"), ["attributes #1 = { cold noreturn }"])


class Functions(unittest.TestCase):
    def test_main_is_renamed_and_exported(self) -> None:
        head = 'define i32 @program_main() "wasm-export-name"="program_main" #0 {'
        self.assertEqual(of("define i32 @main() #0 {", "}"), [head, "}"])

    def test_an_internal_function_stays(self) -> None:
        lines = ["define internal void @f() #0 {", "}"]
        self.assertEqual(of(*lines), lines)

    def test_one_with_small_locals_stays(self) -> None:
        lines = ["define internal void @f() {", f"  %r0 = alloca [{LARGE} x i8], align 8", "}"]
        self.assertEqual(of(*lines), lines)

    def test_one_with_large_locals_is_not_inlined(self) -> None:
        lines = ["define internal void @f() {", f"  %r0 = alloca [{LARGE + 1} x i8], align 8", "}"]
        self.assertEqual(of(*lines), ["define internal void @f() noinline {", *lines[1:]])

    def test_one_that_is_always_inlined_stays_so(self) -> None:
        locals_of = f"  %r0 = alloca [{LARGE + 1} x i8], align 8"
        lines = ["define internal void @f() #3 {", locals_of, "}", "attributes #3 = { alwaysinline nounwind }"]
        self.assertEqual(of(*lines), lines)


class Operations(unittest.TestCase):
    def assert_refused(self, line: str, *lines: str) -> None:
        """The lines are refused for this one of them."""
        with self.assertRaises(NeedsX86) as refused:
            of(*lines)
        self.assertEqual(str(refused.exception), line)

    def test_a_pause_is_dropped(self) -> None:
        head, pause = "define internal void @f() #0 {", "  call void @llvm.x86.sse2.pause()"
        lines = [head, pause, "  ret void", "}", "declare void @llvm.x86.sse2.pause() #4"]
        self.assertEqual(of(*lines), [head, "  ret void", "}"])

    def test_assembly_without_an_instruction_stays(self) -> None:
        lines = ["define internal void @f() #0 {", '  call void asm sideeffect "", "~{memory}"()', "}"]
        self.assertEqual(of(*lines), lines)

    def test_an_operation_of_x86_is_refused(self) -> None:
        fence = "call void @llvm.x86.sse2.mfence()"
        self.assert_refused(fence, "define internal void @f() #0 {", f"  {fence}", "}")

    def test_an_instruction_of_assembly_is_refused(self) -> None:
        cpuid = 'call i32 asm sideeffect "cpuid", "={ax},~{memory}"()'
        self.assert_refused(cpuid, "define internal void @f() #0 {", f"  {cpuid}", "}")

    def test_assembly_of_the_module_is_refused(self) -> None:
        self.assert_refused('module asm "hlt"', 'module asm "hlt"')

    def test_words_of_a_text_are_no_instruction(self) -> None:
        text = '@static.1 = private constant [9 x i8] c"some asm @llvm.x86.", align 1'
        self.assertEqual(of(text), [text])


if __name__ == "__main__":
    unittest.main()
