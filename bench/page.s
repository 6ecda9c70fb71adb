# One page of nothing, linked before the library, so that the library's code begins a page of its own as each C drawer does.
# An emulator is slow where a loop crosses from one page to the next, and ratios would hang on where the linker puts things.
        .globl  page
        .p2align 12
page:   .skip   4096
        .section .note.GNU-stack, "", @progbits
