# A boot block: the BIOS has read it from the collector's block 0. It reads blocks 1 to 3 through the BIOS, sends them in hex over
# the first serial line, a block a line, and writes them to blocks 4093 to 4095. So it does with each disk that the BIOS has found,
# which are the collector's units (document 02, A7). Then it says `end`.

        .set    disks, 0x475                    # where the BIOS keeps their number

        .code16
        .globl  start
start:  xorw    %ax, %ax
        movw    %ax, %ds
        movw    %ax, %es
        movw    %ax, %ss
        movw    $0x7C00, %sp
        cld
        movb    %dl, drive                      # the BIOS's number of the disk that it booted
        movw    $booted, %si
        call    say

each:   movb    $0x42, %ah                      # extended read
        movw    $reading, %si
        call    disk
        movw    $0x8000, %si
        movw    $3, %bx
blocks: movw    $512, %cx
bytes:  lodsb
        call    hex
        loop    bytes
        movb    $'\n', %al
        call    put
        decw    %bx
        jnz     blocks

        movw    $0x4300, %ax                    # extended write, without verifying
        movw    $writing, %si
        call    disk
        incb    drive
        movb    drive, %al
        subb    $0x80, %al
        cmpb    disks, %al
        jb      each
        movw    $ended, %si
        call    say
stop:   hlt
        jmp     stop

disk:   movb    drive, %dl
        int     $0x13
        jc      failed
        ret
failed: movw    $refused, %si
        call    say
        jmp     stop

# %al in two hex digits
hex:    movb    %al, %ah
        shrb    $4, %al
        call    digit
        movb    %ah, %al
        andb    $15, %al
digit:  addb    $'0', %al
        cmpb    $'9', %al
        jbe     put
        addb    $7, %al

# %al over the serial line
put:    pushw   %dx
        pushw   %ax
        movw    $0x3FD, %dx
full:   inb     %dx, %al
        testb   $0x20, %al
        jz      full
        popw    %ax
        movw    $0x3F8, %dx
        outb    %al, %dx
        popw    %dx
        ret

# the text at %si
say:    lodsb
        testb   %al, %al
        jz      said
        call    put
        jmp     say
said:   ret

drive:  .byte   0
booted: .asciz  "booted\n"
refused: .asciz "refused\n"
ended:  .asciz  "end\n"
        .balign 4
# size of the packet, count, where to (offset, segment), the first block
reading: .byte  16, 0
        .word   3, 0x8000, 0
        .quad   1
writing: .byte  16, 0
        .word   3, 0x8000, 0
        .quad   4093

        .org    510
        .word   0xAA55
