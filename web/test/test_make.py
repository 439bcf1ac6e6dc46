"""What `make` refuses of a module for x86-64, because it means nothing or something else on wasm64: `python3 test/test_make.py`.

Each module is a few lines of LLVM's text, which clang reads as it reads a captured module."""

import subprocess
import tempfile
import unittest
from pathlib import Path

WEB = Path(__file__).resolve().parent.parent
HEAD = '''target datalayout = "e-m:e-p270:32:32-p271:32:32-p272:64:64-i64:64-i128:128-f80:128-n8:16:32:64-S128"
target triple = "x86_64-unknown-linux-gnu"
'''
CALLED = "define i32 @f(i32 %x) \"target-cpu\"=\"x86-64\" {\n %y = call i32 @CALLED(i32 %x)\n ret i32 %y\n}\n"


def made(text: str, name: str) -> tuple[int, str]:
    """The status of `make` of one file, `program.o` or `program.wasm`, of a module, and what it says."""
    with tempfile.TemporaryDirectory() as folder:
        Path(folder, "dasd_cmd.bc").write_text(HEAD + text, encoding="utf-8")
        command = ["make", "-s", f"O={folder}/out", f"MODULES={folder}", f"{folder}/out/{name}"]
        ran = subprocess.run(command, cwd=WEB, capture_output=True, text=True, check=False)
        return ran.returncode, ran.stdout + ran.stderr


class Make(unittest.TestCase):
    """What becomes of a module."""

    def refused(self, text: str, why: str) -> None:
        """Looks that clang makes no object of a module, and says why."""
        status, said = made(text, "program.o")
        self.assertNotEqual(status, 0)
        self.assertIn(why, said)

    def test_a_module_without_them(self) -> None:
        self.assertEqual(made(CALLED.replace("CALLED", "f"), "program.o")[0], 0)

    def test_assembly(self) -> None:
        self.refused(CALLED.replace("@CALLED(", 'asm sideeffect "cpuid", "=r,r"('), "invalid instruction")
        self.refused('module asm "movq %rax, %rbx"\n', "Unexpected token")

    def test_an_intrinsic_of_x86(self) -> None:
        declared = "declare i32 @llvm.x86.rdpid(i32)\n"
        self.refused(declared + CALLED.replace("CALLED", "llvm.x86.rdpid"), "llvm.x86.rdpid")

    def test_a_type_of_x86(self) -> None:
        added = "%x = load x86_fp80, ptr %p\n %y = fadd x86_fp80 %x, %x\n store x86_fp80 %y, ptr %p\n ret void"
        self.refused(f"define void @f(ptr %p) {{\n {added}\n}}\n", "unsupported library call")

    def test_a_function_that_is_chosen_at_the_start(self) -> None:
        self.refused("@g = ifunc i32 (i32), ptr @r\ndefine ptr @r() {\n ret ptr null\n}\n", "IFuncs are not supported")

    def test_a_function_that_nobody_has(self) -> None:
        text = "define i32 @main() {\n %y = call i32 @CALLED(i32 7)\n ret i32 %y\n}\n"
        self.assertEqual(made("declare i32 @getpid(i32)\n" + text.replace("CALLED", "getpid"), "program.wasm")[0], 0)
        status, said = made("declare i32 @nobody(i32)\n" + text.replace("CALLED", "nobody"), "program.wasm")
        self.assertNotEqual(status, 0)
        self.assertIn("undefined symbol: nobody", said)


if __name__ == "__main__":
    unittest.main()
