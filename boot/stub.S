# From what a boot loader leaves, 32 bits and no paging, to C in 64 bits: a multiboot header, page tables for the first gigabyte, SSE.
    .set MAGIC, 0x1BADB002
    .set FLAGS, 0
    .section .multiboot, "a"
    .balign 4
    .long MAGIC, FLAGS, -(MAGIC + FLAGS)

    .section .bss
    .balign 4096
pml4: .skip 4096
pdpt: .skip 4096
pd:   .skip 4096
    .globl stack_bottom, stack_top
    .balign 4096
stack_bottom: .skip 65536
stack_top:

    .section .rodata
    .balign 8
gdt:
    .quad 0
    .quad 0x00AF9A000000FFFF # code, 64 bits
    .quad 0x00CF92000000FFFF # data
gdt_pointer:
    .word . - gdt - 1
    .quad gdt

    .text
    .code32
    .globl _start
_start:
    cli
    cld
    mov $stack_top, %esp

    # 64 bits, and where the library is compiled for x86-64-v2 SSE4.2 and POPCNT. Without them this says so, rather than fault.
    mov $0x80000000, %eax
    cpuid
    cmp $0x80000001, %eax
    jb 8f
    mov $0x80000001, %eax
    cpuid
    bt $29, %edx             # long mode
    jnc 8f
#ifndef ANY_X86_64
    mov $1, %eax
    cpuid
    and $0x00980201, %ecx    # SSE3, SSSE3, SSE4.1, SSE4.2, POPCNT
    cmp $0x00980201, %ecx
    jne 9f
#endif

    mov $pdpt, %eax
    or $3, %eax
    mov %eax, pml4
    mov $pd, %eax
    or $3, %eax
    mov %eax, pdpt
    xor %ecx, %ecx
1:  mov %ecx, %eax
    shl $21, %eax
    or $0x83, %eax           # 2 MiB, writable
    mov %eax, pd(, %ecx, 8)
    inc %ecx
    cmp $512, %ecx
    jne 1b
    mov $pml4, %eax
    mov %eax, %cr3
    mov %cr4, %eax
    or $0x620, %eax          # PAE, OSFXSR, OSXMMEXCPT: SSE works
    mov %eax, %cr4
    mov $0xC0000080, %ecx    # EFER.LME
    rdmsr
    bts $8, %eax
    wrmsr
    mov %cr0, %eax
    and $0xFFFFFFFB, %eax    # no emulation of the FPU ..
    or $0x80010002, %eax     # .. MP, WP, paging
    mov %eax, %cr0
    lgdt gdt_pointer
    ljmp $8, $long_mode

8:  mov $no_long_mode, %esi
    jmp 2f
#ifndef ANY_X86_64
9:  mov $no_sse42, %esi
#endif
2:  mov $0xB8000, %edi
    mov $0x3F8, %dx
3:  lodsb
    test %al, %al
    jz 4f
    out %al, %dx
    mov $0x4F, %ah
    stosw
    jmp 3b
4:  hlt
    jmp 4b

    .code64
long_mode:
    mov $16, %eax
    mov %eax, %ds
    mov %eax, %es
    mov %eax, %ss
    mov $stack_top, %rsp
    xor %ebp, %ebp
    call kernel
5:  cli
    hlt
    jmp 5b

    .section .rodata
no_long_mode: .asciz "This processor has no 64 bits.\r\n"
#ifndef ANY_X86_64
no_sse42: .asciz "This processor lacks SSE4.2 or POPCNT, for which the library is compiled.\r\n"
#endif
    .section .note.GNU-stack, "", @progbits
