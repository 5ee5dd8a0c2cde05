/* The beginnings of a processor, and its entries: PVH for the first processor (Xen's ELF note, which QEMU's -kernel reads), INIT and SIPI for the
   others; then long mode with CR0.WP and EFER.NXE set, a stack of its own, and kernel_main. */
.section .note.Xen, "a", @note
.balign 4
.long 4, 4, 18          /* XEN_ELFNOTE_PHYS32_ENTRY */
.asciz "Xen"
.long start

.text
.code32
.globl start
start:
    cli
    cld
    mov %ebx, start_info
    mov $low_pages, %edi        /* the first 4 GiB, by pages of 2 MiB, at their own addresses */
    mov $0x83, %eax
1:  mov %eax, (%edi)
    movl $0, 4(%edi)
    add $8, %edi
    add $0x200000, %eax
    jnc 1b
    mov $low_tables, %edi
    mov $(low_pages + 3), %eax
    mov $4, %ecx
2:  mov %eax, (%edi)
    movl $0, 4(%edi)
    add $8, %edi
    add $4096, %eax
    loop 2b
    movl $(low_tables + 3), boot_root
to_long_mode:
    mov $0x10, %ax
    mov %ax, %ds
    mov %ax, %es
    mov %ax, %ss
    mov $boot_root, %eax
    mov %eax, %cr3
    mov %cr4, %eax
    or $0x20, %eax              /* PAE */
    mov %eax, %cr4
    mov $0xc0000080, %ecx       /* EFER: LME and NXE */
    rdmsr
    or $0x900, %eax
    wrmsr
    mov %cr0, %eax
    or $0x80010001, %eax        /* PG, WP, PE */
    mov %eax, %cr0
    lgdt segments
    ljmp $8, $in_long_mode

.code64
in_long_mode:
    mov $0x10, %eax
    mov %eax, %ds
    mov %eax, %es
    mov %eax, %ss
    mov $1, %edi
    lock xadd %edi, started     /* this processor's number */
    lea 1(%rdi), %eax
    shl $16, %eax               /* 64 KiB of stack each */
    lea stacks(%rax), %rsp
    call kernel_main
3:  sti                         /* it still takes messages */
    hlt
    jmp 3b

/* Where the other processors begin, in real mode: a copy lies at 0x8000. */
.code16
.globl others_begin, others_end
others_begin:
    cli
    xor %ax, %ax
    mov %ax, %ds
    lgdtl 0x8000 + (others_segments - others_begin)
    mov %cr0, %eax
    or $1, %al
    mov %eax, %cr0
    ljmpl $0x18, $to_long_mode
.balign 8
others_segments:
    .word 31
    .long descriptors
others_end:

.code64
.balign 16
descriptors: .quad 0, 0x00af9a000000ffff, 0x00cf92000000ffff, 0x00cf9a000000ffff
segments: .word 31
    .quad descriptors

/* An entry of an exception or interrupt: saves all registers, and hands them to `handler`. */
.macro entry name handler has_error
.globl \name
\name:
  .if \has_error == 0
    push $0
  .endif
    push %rax; push %rbx; push %rcx; push %rdx; push %rsi; push %rdi; push %rbp
    push %r8; push %r9; push %r10; push %r11; push %r12; push %r13; push %r14; push %r15
    mov %rsp, %rdi
    mov %rsp, %rbp
    and $-16, %rsp
    cld
    call \handler
    mov %rbp, %rsp
    pop %r15; pop %r14; pop %r13; pop %r12; pop %r11; pop %r10; pop %r9; pop %r8
    pop %rbp; pop %rdi; pop %rsi; pop %rdx; pop %rcx; pop %rbx; pop %rax
    add $8, %rsp
    iretq
.endm
entry page_fault_entry on_page_fault 1
entry message_entry on_message 0
entry error_entry on_error 1
entry other_entry on_error 0

/* The accesses of programs. A refused one goes on at `refused`, with what the program is told in its result. */
.globl guest_load, guest_store, refused
guest_load:
    movzbl (%rdi), %eax
    ret
guest_store:
    movb %sil, (%rdi)
    xor %eax, %eax
refused:
    ret

.bss
.balign 4096
boot_root: .skip 4096
.globl low_tables, started, start_info
low_tables: .skip 4096
low_pages: .skip 4 * 4096
stacks: .skip 8 * 65536
started: .skip 4
start_info: .skip 4
.section .note.GNU-stack, "", @progbits
