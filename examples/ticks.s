; Interrupts, for the machine of mips.lisa: the handler counts them in the first cell of the data memory, while the program adds up
; the numbers from 1 to 100 in $2, 5050.
        .section prog
        j @start
        .space 31
handler:                        ; at 0x80; it has $13 and $14 for itself
        lw $13,0($0)
        addiu $13,$13,1
        sw $13,0($0)
        mfc0 $14,$14
        rfe
        jr $14
start:  li $1,1
        mtc0 $1,$12             ; from now on interrupts are taken
        li $2,0
        li $3,100
add:    addu $2,$2,$3
        addiu $3,$3,-1
        bgtz $3,@(add-$-1)
done:   b @(done-$-1)
