# Samples for tests/code/probes.py: each function's name begins with what has to be found there. Names stand at the
# start of a line, and jumps go to labels that leave no symbol.
        .section .note.GNU-stack,"",@progbits
        .text
        .globl  none_pages, none_loops, loop_entry, loop_far, loop_test, loop_tail, loop_return, loop_table
        .globl  refused_length, refused_below, refused_byte, refused_table
        .globl  refused_register, refused_end, refused_entered

# a frame of three pages, probed without a loop, and a loop that leaves the stack as it was
none_pages:
        movq    8(%rsi), %r11
        testq   %r11, %r11
        je      .Lpages_end
        subq    $0x1000, %rsp
        movq    $0, (%rsp)
        subq    $0x1000, %rsp
        movq    $0, (%rsp)
        subq    $0x1000, %rsp
        addq    $0x3000, %rsp
.Lpages_end:
        ret

none_loops:
        pushq   %rbx
        xorl    %r11d, %r11d
.Lloops_again:
        pushq   %rcx
        callq   none_pages
        popq    %rcx
        incq    %r11
        cmpq    %r11, %rcx
        jne     .Lloops_again
        popq    %rbx
        ret

# at the very entry; r11 is used later, and a table leads to the rest
loop_entry:
        pushq   %rbx
        movq    %rsp, %r11
        subq    $0x11000, %r11
.Lentry_probe:
        subq    $0x1000, %rsp
        movq    $0, (%rsp)
        cmpq    %r11, %rsp
        jne     .Lentry_probe
        subq    $0x978, %rsp
        movq    8(%rsi), %r11
        jmpq    *(%r11)
        addq    $0x11978, %rsp
        popq    %rbx
        ret

loop_far:
        leaq    -0x18000(%rsp), %r11
.Lfar_probe:
        subq    $0x1000, %rsp
        orq     $0, (%rsp)
        cmpq    %rsp, %r11
        jne     .Lfar_probe
        addq    $0x18000, %rsp
        jmp     none_pages

# behind a first test, but r11 was not in use
loop_test:
        movq    8(%rsi), %rax
        testq   %rax, %rax
        je      .Ltest_end
        movq    %rsp, %r11
        subq    $0x11000, %r11
.Ltest_probe:
        subq    $0x1000, %rsp
        movq    $0, (%rsp)
        cmpq    %r11, %rsp
        jne     .Ltest_probe
        movq    %rax, %r11
        addq    $0x11000, %rsp
.Ltest_end:
        ret

# r11 is in use on the other way only, which leaves for another function, or returns
loop_tail:
        testq   %rdi, %rdi
        jne     .Ltail_prologue
        movq    8(%rsi), %r11
        jmp     elsewhere
.Ltail_prologue:
        leaq    -0x18000(%rsp), %r11
.Ltail_probe:
        subq    $0x1000, %rsp
        movq    $0, (%rsp)
        cmpq    %r11, %rsp
        jne     .Ltail_probe
        addq    $0x18000, %rsp
        ret

loop_return:
        testq   %rdi, %rdi
        jne     .Lreturn_prologue
        movq    8(%rsi), %r11
        ret
.Lreturn_prologue:
        leaq    -0x18000(%rsp), %r11
.Lreturn_probe:
        subq    $0x1000, %rsp
        movq    $0, (%rsp)
        cmpq    %r11, %rsp
        jne     .Lreturn_probe
        addq    $0x18000, %rsp
        ret

# the table is behind the loop, and nothing else names r11
loop_table:
        testq   %rdi, %rdi
        je      .Ltable_end
        leaq    -0x18000(%rsp), %r11
.Ltable_probe:
        subq    $0x1000, %rsp
        movq    $0, (%rsp)
        cmpq    %r11, %rsp
        jne     .Ltable_probe
        jmpq    *(%rdi)
.Ltable_end:
        ret

# as it was met: r11 holds a length, the prologue stands behind the test of it
refused_length:
        movq    8(%rsi), %r11
        movl    $3, %eax
        testq   %r11, %r11
        je      .Llength_end
        pushq   %rbp
        pushq   %rbx
        movq    %rsp, %r11
        subq    $0x11000, %r11
.Llength_probe:
        subq    $0x1000, %rsp
        movq    $0, (%rsp)
        cmpq    %r11, %rsp
        jne     .Llength_probe
        subq    $0x978, %rsp
        cmpq    $32, %r11
        addq    $0x11978, %rsp
        popq    %rbx
        popq    %rbp
.Llength_end:
        ret

# the same, but what uses r11 first stands behind the loop
refused_below:
        testq   %rdi, %rdi
        jne     .Lbelow_first
        ret
.Lbelow_prologue:
        movq    %rsp, %r11
        subq    $0x11000, %r11
.Lbelow_probe:
        subq    $0x1000, %rsp
        movq    $0, (%rsp)
        cmpq    %r11, %rsp
        jne     .Lbelow_probe
        addq    $0x11000, %rsp
        ret
.Lbelow_first:
        movq    8(%rsi), %r11
        jmp     .Lbelow_prologue

# a part of r11, and the other form of the loop
refused_byte:
        movzbl  (%rsi), %r11d
        cmpb    $2, %r11b
        ja      .Lbyte_end
        leaq    -0x18000(%rsp), %r11
.Lbyte_probe:
        subq    $0x1000, %rsp
        orq     $0, (%rsp)
        cmpq    %r11, %rsp
        jne     .Lbyte_probe
        addq    $0x18000, %rsp
.Lbyte_end:
        ret

# r11 is in use where a table leads to the loop
refused_table:
        testq   %rdi, %rdi
        je      .Lthere_end
        movq    (%rdi), %r11
        jmpq    *8(%rdi)
        leaq    -0x18000(%rsp), %r11
.Lthere_probe:
        subq    $0x1000, %rsp
        movq    $0, (%rsp)
        cmpq    %r11, %rsp
        jne     .Lthere_probe
        addq    $0x18000, %rsp
.Lthere_end:
        ret

# loops of other forms: one that ends by another register, one whose end is not set, and one that is jumped into
refused_register:
        leaq    -0x18000(%rsp), %r11
.Lregister_probe:
        subq    $0x1000, %rsp
        movq    $0, (%rsp)
        cmpq    %rcx, %rsp
        jne     .Lregister_probe
        addq    $0x18000, %rsp
        ret

refused_end:
        pushq   %rbx
.Lend_probe:
        subq    $0x1000, %rsp
        movq    $0, (%rsp)
        cmpq    %r11, %rsp
        jne     .Lend_probe
        ret

refused_entered:
        testq   %rdi, %rdi
        je      .Lentered_probe
        movq    %rsp, %r11
        subq    $0x11000, %r11
.Lentered_probe:
        subq    $0x1000, %rsp
        movq    $0, (%rsp)
        cmpq    %r11, %rsp
        jne     .Lentered_probe
        ret
