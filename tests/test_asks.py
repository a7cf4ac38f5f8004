"""Tests of the asks tool: python3 -m unittest discover -s tests"""

import unittest

from here import load

asks = load("asks")

# `outer` takes 8 + 8 + 8 + 256 and calls `in::ner`, which takes 8 + 8, and memset.
TEXT = """
buongilach.o:     file format elf64-x86-64

Disassembly of section .text.in::ner:

0000000000000000 <in::ner>:
   0:\tpush   %rbx
   1:\tmov    %rsp,%rbx
   4:\tpop    %rbx
   5:\tret

Disassembly of section .text.outer:

0000000000000000 <outer>:
   0:\tpush   %rbp
   1:\tpush   %r14
   3:\tsub    $0x100,%rsp
   a:\tcall   f <outer+0xf>
\t\t\tb: R_X86_64_PLT32\t.text.in::ner-0x4
   f:\tlea    0x0(%rip),%rsi        # 16 <outer+0x16>
\t\t\t12: R_X86_64_PC32\t.rodata-0x4
  16:\tcall   1b <outer+0x1b>
\t\t\t17: R_X86_64_PLT32\tmemset-0x4
  1b:\tjmp    *%rsi
  1d:\tadd    $0x100,%rsp
  24:\tret
"""


class Asks(unittest.TestCase):

    def test_bound(self):
        found = asks.functions(TEXT)
        self.assertEqual(found, {"in::ner": [16, set()], "outer": [8 + 16 + 256, {"in::ner", "memset"}]})
        self.assertEqual(asks.bound(found, "in::ner"), 16 + 128)
        self.assertEqual(asks.bound(found, "outer"), 280 + 16 + 128)

    def test_needed(self):
        table = ("0000000000000000 l    d  .text.in::ner\t0000000000000000 .text.in::ner\n"
                 "0000000000000000         *UND*\t0000000000000000 memset\n"
                 "0000000000000000 g     F .text.outer\t0000000000000025 outer\n")
        self.assertEqual(asks.needed(table), ["memset"])

    def test_writable(self):
        headers = ("  0 .text.outer   00000025  0000000000000000  0000000000000000  00000040  2**4\n"
                   "                  CONTENTS, ALLOC, LOAD, RELOC, READONLY, CODE\n"
                   "  1 .data.count   00000010  0000000000000000  0000000000000000  00000070  2**2\n"
                   "  2 .bss          00000004  0000000000000000  0000000000000000  00000080  2**2\n")
        self.assertEqual(asks.writable(headers), 20)

    def test_tail_call(self):
        found = asks.functions(TEXT.replace("call   f <outer+0xf>", "jmp    f <outer+0xf>"))
        self.assertEqual(found["outer"][1], {"in::ner", "memset"})

    def test_no_bound(self):
        for line in ("call   *%rax", "notrack call *%rax", "call   0 <outer>", "sub    %rax,%rsp", "mov    %rax,%rsp", "sub    $0x1001,%rsp",
                     "cmp    %r11,%rsp"):
            with self.subTest(line=line):
                with self.assertRaises(asks.NoBound):
                    asks.functions(TEXT.replace("sub    $0x100,%rsp", line))

    def test_pages(self):
        # a frame of 4,352 bytes: a page, touched, and the rest
        pages = TEXT.replace("sub    $0x100,%rsp", "sub    $0x1000,%rsp\n   a:\tmovq   $0x0,(%rsp)\n  12:\tsub    $0x100,%rsp")
        self.assertEqual(asks.functions(pages)["outer"][0], 8 + 16 + 4096 + 256)

    def test_recursion(self):
        found = asks.functions(TEXT.replace("\tmemset-0x4", "\t.text.outer-0x4"))
        with self.assertRaises(asks.NoBound):
            asks.bound(found, "outer")


if __name__ == "__main__":
    unittest.main()
