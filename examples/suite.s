; 22 computations, one after the other, for the machine of mips.lisa: sums and digests of a text, a cipher and back, sorts, a product of
; matrices, primes, queens, numbers of several words and with a floating point, Life, and a machine of bytes that runs on this one.
; They have all 1,024 cells of its program memory, and each of these is done: the handler's where there are interrupts, all others always.
;
; The table `parts` has the parts in their order. A part writes its words of the results behind those of the parts before it, from the first
; cell of the data memory on. At the end $3 is how many they are, 52, and $2 how many of them are as the table `wanted` has them.
;
; $11 is the place of the next word of the results, $12 that of the last word on the stack; $13 and $14 are the handler's. Parts may change
; the others. What they call has its arguments from $4 on and answers in $2, but where it says something else.

; The data: places in bytes. What the program brings ends at 1064.
        .equ results 0
        .equ wanted 256
        .equ parts 464
        .equ text 556
        .equ length 43          ; of the text in bytes
        .equ bits 344           ; and in bits
        .equ digits 600
        .equ sought 612
        .equ firsts 616
        .equ sines 636
        .equ turns 892
        .equ key 908
        .equ plain 924
        .equ cells 932
        .equ code 944
        .equ floats 972
        .equ angles 1000
        .equ room 1088          ; 256 words, for each part anew
        .equ table 2112         ; 256 words, of the CRC
        .equ block 3136         ; 80 words, of MD5 and SHA-1
        .equ stack 4088         ; grows down
        .equ ticks 4092         ; how many interrupts were taken

; ---- the program

        .section prog
        j @start

; The CRC-32 of the bytes from $4 to before $5, by the table that the part `crc` makes.
crc_of: not $2,$0
crc_byte:
        beq $4,$5,@(crc_end-$-1)
        lbu $1,0($4)
        addiu $4,$4,1
        xor $1,$1,$2
        andi $1,$1,0xff
        sll $1,$1,0x2
        lw $1,@table($1)
        srl $2,$2,0x8
        xor $2,$2,$1
        b @(crc_byte-$-1)
crc_end:
        not $2,$2
        jr $15

; $4 divided by $5, which is below 2^31: the quotient in $4, and what is left in $3.
divide: li $3,0
        li $1,32
divide_bit:
        srl $6,$4,0x1f
        sll $3,$3,0x1
        or $3,$3,$6
        sll $4,$4,0x1
        sltu $6,$3,$5
        bnez $6,@(divide_less-$-1)
        subu $3,$3,$5
        addiu $4,$4,1
divide_less:
        addiu $1,$1,-1
        bgtz $1,@(divide_bit-$-1)
        jr $15

; The ends of parts that have $15 on the stack: $2 is the next word of the results, and then back.
keep_leave:
        sw $2,0($11)
        addiu $11,$11,4
leave:  lw $15,0($12)
        addiu $12,$12,4
        jr $15

; Counts an interrupt. It has to be at 0x80, so with 32 cells before it.
handler:
        lw $13,@ticks($0)
        addiu $13,$13,1
        sw $13,@ticks($0)
        mfc0 $14,$14
        rfe
        jr $14

; The parts, and how many of their words are right.
start:  li $1,1
        mtc0 $1,$12             ; from now on interrupts are taken
        li $12,@stack
        li $11,@results
        li $10,@parts
call:   lw $1,0($10)
        beqz $1,@(compare-$-1)
        sw $10,0($12)           ; the first word of the stack
        jalr $15,$1
        lw $10,0($12)
        addiu $10,$10,4
        b @(call-$-1)
compare:
        li $2,0
        li $3,0
        li $4,@results
same:   lw $5,0($4)
        lw $6,@wanted($4)       ; the results begin at 0
        addiu $4,$4,4
        addiu $3,$3,1
        bne $5,$6,@(other-$-1)
        addiu $2,$2,1
other:  bne $4,$11,@(same-$-1)
done:   b @(done-$-1)

; The end of other parts.
keep:   sw $2,0($11)
        addiu $11,$11,4
        jr $15

; A hash of the words from $4 to before $5: for each of them 31 times what there was, and the word.
hash_of:
        li $2,0
hash_word:
        lw $1,0($4)
        addiu $4,$4,4
        sll $3,$2,0x5
        subu $2,$3,$2
        addu $2,$2,$1
        bne $4,$5,@(hash_word-$-1)
        jr $15

; Random words from $4 to before $5, each from the one before by shifts of 13, 17 and 5 bits; their sum.
fill:   lui $2,0x92d6
        ori $2,$2,0x8ca2
        li $3,0
fill_word:
        sll $1,$2,0xd
        xor $2,$2,$1
        srl $1,$2,0x11
        xor $2,$2,$1
        sll $1,$2,0x5
        xor $2,$2,$1
        sw $2,0($4)
        addu $3,$3,$2
        addiu $4,$4,4
        bne $4,$5,@(fill_word-$-1)
        move $2,$3
        jr $15

; CRC-32: the hash of its table, which is made from one word by eight doublings; the CRC of the digits from 1 to 9; that of the text.
crc:    addiu $12,$12,-4
        sw $15,0($12)
        sw $0,@table($0)
        li $1,1
        li $2,512
        lui $7,0xedb8
        ori $7,$7,0x8320
crc_power:
        andi $4,$1,0x1
        srl $1,$1,0x1
        beqz $4,@(crc_even-$-1)
        xor $1,$1,$7
crc_even:
        li $3,0
crc_fill:
        lw $4,@table($3)
        addu $5,$3,$2
        xor $4,$4,$1
        sw $4,@table($5)
        addu $3,$5,$2
        slti $4,$3,1024
        bnez $4,@(crc_fill-$-1)
        srl $2,$2,0x1
        slti $4,$2,4
        beqz $4,@(crc_power-$-1)
        li $4,@table
        addiu $5,$4,1024
        jal @hash_of
        sw $2,0($11)
        li $4,@digits
        addiu $5,$4,9
        jal @crc_of
        sw $2,4($11)
        addiu $11,$11,8
        li $4,@text
        addiu $5,$4,@length
        jal @crc_of
        j @keep_leave

; Adler-32 of the text: one more than the sum of its bytes, which doesn't come to 65521, and above it the sum of these sums modulo 65521.
adler:  li $1,@text
        addiu $3,$1,@length
        li $4,1
        li $5,0
        ori $7,$0,0xfff1
adler_byte:
        lbu $6,0($1)
        addiu $1,$1,1
        addu $4,$4,$6
        addu $5,$5,$4
        sltu $6,$5,$7
        bnez $6,@(adler_small-$-1)
        subu $5,$5,$7
adler_small:
        bne $1,$3,@(adler_byte-$-1)
        sll $2,$5,0x10
        or $2,$2,$4
        j @keep

; The text in a block of 64 bytes for MD5 or SHA-1, with its end marked, but without its length. Byte n stands at n ^ $4.
pad:    li $1,60
pad_clear:
        sw $0,@block($1)
        addiu $1,$1,-4
        bgez $1,@(pad_clear-$-1)
        li $1,0
pad_byte:
        lbu $2,@text($1)
        xor $3,$1,$4
        sb $2,@block($3)
        addiu $1,$1,1
        slti $2,$1,@length
        bnez $2,@(pad_byte-$-1)
        li $2,128
        xor $3,$1,$4
        sb $2,@block($3)
        jr $15

; MD5 of the text, four words: 64 steps in four rounds, each of which has its own function of three words and takes the block's words in its
; own order.
md5:    addiu $12,$12,-4
        sw $15,0($12)
        li $4,3                 ; its words have their lowest byte first
        jal @pad
        li $1,@bits
        sw $1,@(block+56)($0)
        lw $1,@firsts($0)
        lw $2,@(firsts+4)($0)
        lw $3,@(firsts+8)($0)
        lw $4,@(firsts+12)($0)
        li $6,0                 ; four times the number of the step
md5_choose:
        xor $5,$3,$4            ; $2 chooses between $3 and $4
        and $5,$5,$2
        xor $5,$5,$4
        move $7,$6
        jal @md5_step
        slti $8,$6,64
        bnez $8,@(md5_choose-$-1)
md5_other:
        xor $5,$2,$3            ; $4 chooses between $2 and $3
        and $5,$5,$4
        xor $5,$5,$3
        sll $7,$6,0x2
        addu $7,$7,$6
        addiu $7,$7,4
        jal @md5_step
        slti $8,$6,128
        bnez $8,@(md5_other-$-1)
md5_parity:
        xor $5,$2,$3
        xor $5,$5,$4
        sll $7,$6,0x1
        addu $7,$7,$6
        addiu $7,$7,20
        jal @md5_step
        slti $8,$6,192
        bnez $8,@(md5_parity-$-1)
md5_last:
        not $5,$4
        or $5,$5,$2
        xor $5,$5,$3
        sll $7,$6,0x3
        subu $7,$7,$6
        jal @md5_step
        slti $8,$6,256
        bnez $8,@(md5_last-$-1)
        lw $5,@firsts($0)
        addu $1,$1,$5
        sw $1,@block($0)
        lw $5,@(firsts+4)($0)
        addu $2,$2,$5
        sw $2,@(block+4)($0)
        lw $5,@(firsts+8)($0)
        addu $3,$3,$5
        sw $3,@(block+8)($0)
        lw $5,@(firsts+12)($0)
        addu $4,$4,$5
        sw $4,@(block+12)($0)
        li $1,0
md5_byte:
        xori $2,$1,0x3
        lbu $3,@block($2)
        sb $3,0($11)
        addiu $11,$11,1
        addiu $1,$1,1
        slti $2,$1,16
        bnez $2,@(md5_byte-$-1)
        j @leave

; A step of MD5: $5 is the value of the function, $7 four times the number of the block's word, $6 four times that of the step.
md5_step:
        andi $7,$7,0x3c
        lw $8,@block($7)
        lw $9,@sines($6)
        addu $5,$5,$1
        addu $5,$5,$8
        addu $5,$5,$9
        srl $8,$6,0x4           ; one of four distances in each round
        andi $8,$8,0xc
        srl $9,$6,0x2
        andi $9,$9,0x3
        or $8,$8,$9
        lbu $8,@turns($8)
        move $1,$4
        move $4,$3
        move $3,$2
        sllv $9,$5,$8
        negu $8,$8
        srlv $5,$5,$8
        or $5,$5,$9
        addu $2,$2,$5
        addiu $6,$6,4
        jr $15

; SHA-1 of the text, five words: the block's 16 words become 80, one for each step; four rounds, each with its function and constant.
sha:    addiu $12,$12,-4
        sw $15,0($12)
        li $4,0
        jal @pad
        li $1,@bits
        sw $1,@(block+60)($0)
        li $1,0
sha_word:
        lw $2,@(block+52)($1)
        lw $3,@(block+32)($1)
        xor $2,$2,$3
        lw $3,@(block+8)($1)
        xor $2,$2,$3
        lw $3,@block($1)
        xor $2,$2,$3
        sll $3,$2,0x1
        srl $2,$2,0x1f
        or $2,$2,$3
        sw $2,@(block+64)($1)
        addiu $1,$1,4
        slti $2,$1,256
        bnez $2,@(sha_word-$-1)
        lw $1,@firsts($0)
        lw $2,@(firsts+4)($0)
        lw $3,@(firsts+8)($0)
        lw $4,@(firsts+12)($0)
        lw $5,@(firsts+16)($0)
        li $7,0
        lui $10,0x5a82
        ori $10,$10,0x7999
sha_choose:
        xor $6,$3,$4
        and $6,$6,$2
        xor $6,$6,$4
        jal @sha_step
        slti $8,$7,80
        bnez $8,@(sha_choose-$-1)
        lui $10,0x6ed9
        ori $10,$10,0xeba1
sha_parity:
        xor $6,$2,$3
        xor $6,$6,$4
        jal @sha_step
        slti $8,$7,160
        bnez $8,@(sha_parity-$-1)
        lui $10,0x8f1b
        ori $10,$10,0xbcdc
sha_most:
        or $6,$2,$3             ; the bits of two at least
        and $6,$6,$4
        and $8,$2,$3
        or $6,$6,$8
        jal @sha_step
        slti $8,$7,240
        bnez $8,@(sha_most-$-1)
        lui $10,0xca62
        ori $10,$10,0xc1d6
sha_last:
        xor $6,$2,$3
        xor $6,$6,$4
        jal @sha_step
        slti $8,$7,320
        bnez $8,@(sha_last-$-1)
        lw $6,@firsts($0)
        addu $1,$1,$6
        sw $1,0($11)
        lw $6,@(firsts+4)($0)
        addu $2,$2,$6
        sw $2,4($11)
        lw $6,@(firsts+8)($0)
        addu $3,$3,$6
        sw $3,8($11)
        lw $6,@(firsts+12)($0)
        addu $4,$4,$6
        sw $4,12($11)
        lw $6,@(firsts+16)($0)
        addu $2,$5,$6
        addiu $11,$11,16
        j @keep_leave

; A step of SHA-1: $6 is the value of the function, $10 the constant, $7 four times the number of the step.
sha_step:
        lw $8,@block($7)
        addu $6,$6,$5
        addu $6,$6,$10
        addu $6,$6,$8
        move $5,$4
        move $4,$3
        sll $3,$2,0x1e
        srl $8,$2,0x2
        or $3,$3,$8
        move $2,$1
        sll $8,$1,0x5
        srl $9,$1,0x1b
        or $8,$8,$9
        addu $1,$8,$6
        addiu $7,$7,4
        jr $15

; XTEA with a key of four words: two words, and these again from them.
xtea:   addiu $12,$12,-4
        sw $15,0($12)
        lw $1,@plain($0)
        lw $2,@(plain+4)($0)
        li $3,0
        lui $4,0x9e37
        ori $4,$4,0x79b9
        li $5,32
xtea_round:
        move $6,$2
        move $7,$3
        jal @xtea_mix
        addu $1,$1,$7
        addu $3,$3,$4
        move $6,$1
        srl $7,$3,0xb
        jal @xtea_mix
        addu $2,$2,$7
        addiu $5,$5,-1
        bgtz $5,@(xtea_round-$-1)
        sw $1,0($11)
        sw $2,4($11)
        li $5,32
xtea_back:
        move $6,$1
        srl $7,$3,0xb
        jal @xtea_mix
        subu $2,$2,$7
        subu $3,$3,$4
        move $6,$2
        move $7,$3
        jal @xtea_mix
        subu $1,$1,$7
        addiu $5,$5,-1
        bgtz $5,@(xtea_back-$-1)
        sw $1,8($11)
        addiu $11,$11,12
        j @keep_leave

; In $7 what the word $6 gives to the other one, with the sum $3 and the word of the key that the last bits of $7 tell.
xtea_mix:
        andi $7,$7,0x3
        sll $7,$7,0x2
        lw $7,@key($7)
        addu $7,$7,$3
        sll $8,$6,0x4
        srl $9,$6,0x5
        xor $8,$8,$9
        addu $8,$8,$6
        xor $7,$7,$8
        jr $15

; Quicksort of 256 random words, as numbers with a sign: their sum before, their sum after, how many stand behind a greater one, their hash.
sort:   addiu $12,$12,-4
        sw $15,0($12)
        li $4,@room
        addiu $5,$4,1024
        jal @fill
        sw $2,0($11)
        li $4,@room
        addiu $5,$4,1020
        jal @quick
        li $4,@room
        addiu $5,$4,1020
        lw $1,0($4)
        move $2,$1
        li $3,0
sort_next:
        lw $6,4($4)
        addiu $4,$4,4
        addu $2,$2,$6
        slt $1,$6,$1
        addu $3,$3,$1
        move $1,$6
        bne $4,$5,@(sort_next-$-1)
        sw $2,4($11)
        sw $3,8($11)
        addiu $11,$11,12
        li $4,@room
        addiu $5,$4,1024
        jal @hash_of
        j @keep_leave

; Sorts the words from $4 to $5: parts them around the one in the middle, and sorts both sides.
quick:  sltu $1,$4,$5
        beqz $1,@(quick_end-$-1)
        addiu $12,$12,-12
        sw $15,0($12)
        sw $5,4($12)
        addu $1,$4,$5
        srl $1,$1,0x3
        sll $1,$1,0x2
        lw $3,0($1)
        addiu $6,$4,-4
        addiu $7,$5,4
quick_up:
        addiu $6,$6,4
        lw $1,0($6)
        slt $8,$1,$3
        bnez $8,@(quick_up-$-1)
quick_down:
        addiu $7,$7,-4
        lw $2,0($7)
        slt $8,$3,$2
        bnez $8,@(quick_down-$-1)
        sltu $8,$6,$7
        beqz $8,@(quick_parted-$-1)
        sw $2,0($6)
        sw $1,0($7)
        b @(quick_up-$-1)
quick_parted:
        addiu $1,$7,4
        sw $1,8($12)
        move $5,$7
        jal @quick
        lw $4,8($12)
        lw $5,4($12)
        jal @quick
        lw $15,0($12)
        addiu $12,$12,12
quick_end:
        jr $15

; Heapsort of 64 random words, as numbers without a sign: their hash.
heap:   addiu $12,$12,-4
        sw $15,0($12)
        li $4,@room
        addiu $5,$4,256
        jal @fill
        li $5,256
        li $10,124
heap_make:
        move $1,$10
        jal @sift
        addiu $10,$10,-4
        bgez $10,@(heap_make-$-1)
heap_take:
        addiu $5,$5,-4
        lw $3,@room($5)
        lw $1,@room($0)
        sw $1,@room($5)
        li $1,0
        jal @sift_in
        slti $1,$5,8
        beqz $1,@(heap_take-$-1)
        li $4,@room
        addiu $5,$4,256
        jal @hash_of
        j @keep_leave

; The word at $1, or $3 in its place, goes down the heap that ends before $5, until those below it are no greater.
sift:   lw $3,@room($1)
sift_in:
        sll $2,$1,0x1
        addiu $2,$2,4
        sltu $6,$2,$5
        beqz $6,@(sift_end-$-1)
        lw $7,@room($2)
        addiu $6,$2,4
        sltu $8,$6,$5
        beqz $8,@(sift_one-$-1)
        lw $8,@room($6)
        sltu $9,$7,$8
        beqz $9,@(sift_one-$-1)
        move $2,$6
        move $7,$8
sift_one:
        sltu $9,$3,$7
        beqz $9,@(sift_end-$-1)
        sw $7,@room($1)
        move $1,$2
        b @(sift_in-$-1)
sift_end:
        sw $3,@room($1)
        jr $15

; The product of two matrices of 8 by 8 random words: its trace and its hash.
matrix: addiu $12,$12,-4
        sw $15,0($12)
        li $4,@room
        addiu $5,$4,512
        jal @fill
        li $4,@room
        li $7,@(room+512)
matrix_row:
        li $5,@(room+256)
matrix_cell:
        lw $1,0($4)
        lw $3,0($5)
        mult $1,$3
        mflo $2
        lw $1,4($4)
        lw $3,32($5)
        mult $1,$3
        mflo $1
        addu $2,$2,$1
        lw $1,8($4)
        lw $3,64($5)
        mult $1,$3
        mflo $1
        addu $2,$2,$1
        lw $1,12($4)
        lw $3,96($5)
        mult $1,$3
        mflo $1
        addu $2,$2,$1
        lw $1,16($4)
        lw $3,128($5)
        mult $1,$3
        mflo $1
        addu $2,$2,$1
        lw $1,20($4)
        lw $3,160($5)
        mult $1,$3
        mflo $1
        addu $2,$2,$1
        lw $1,24($4)
        lw $3,192($5)
        mult $1,$3
        mflo $1
        addu $2,$2,$1
        lw $1,28($4)
        lw $3,224($5)
        mult $1,$3
        mflo $1
        addu $2,$2,$1
        sw $2,0($7)
        addiu $7,$7,4
        addiu $5,$5,4
        slti $1,$5,@(room+288)
        bnez $1,@(matrix_cell-$-1)
        addiu $4,$4,32
        slti $1,$4,@(room+256)
        bnez $1,@(matrix_row-$-1)
        li $2,0
        li $4,@(room+512)
matrix_trace:
        lw $1,0($4)
        addiu $4,$4,36
        addu $2,$2,$1
        slti $1,$4,@(room+768)
        bnez $1,@(matrix_trace-$-1)
        sw $2,0($11)
        addiu $11,$11,4
        li $4,@(room+512)
        addiu $5,$4,256
        jal @hash_of
        j @keep_leave

; The primes below 500, by the sieve of Eratosthenes with a bit for each number: how many they are, and their sum.
sieve:  li $1,60
sieve_clear:
        sw $0,@room($1)
        addiu $1,$1,-4
        bgez $1,@(sieve_clear-$-1)
        li $2,0
        li $3,0
        li $4,2
        li $9,1
sieve_next:
        srl $5,$4,0x5
        sll $5,$5,0x2
        lw $6,@room($5)
        srlv $6,$6,$4
        andi $6,$6,0x1
        bnez $6,@(sieve_step-$-1)
        addiu $2,$2,1
        addu $3,$3,$4
        mult $4,$4
        mflo $7
sieve_mark:
        slti $8,$7,500
        beqz $8,@(sieve_step-$-1)
        srl $5,$7,0x5
        sll $5,$5,0x2
        lw $6,@room($5)
        sllv $8,$9,$7
        or $6,$6,$8
        sw $6,@room($5)
        addu $7,$7,$4
        b @(sieve_mark-$-1)
sieve_step:
        addiu $4,$4,1
        slti $8,$4,500
        bnez $8,@(sieve_next-$-1)
        sw $3,4($11)
        sw $2,0($11)
        addiu $11,$11,8
        jr $15

; In how many ways 4 queens stand on a board of 4 rows and columns so that none takes another, and so for 5 and 6.
queens: addiu $12,$12,-4
        sw $15,0($12)
        li $9,4
queens_board:
        li $7,1
        sllv $7,$7,$9
        addiu $7,$7,-1
        li $2,0
        li $4,0
        li $5,0
        li $6,0
        jal @queens_row
        sw $2,0($11)
        addiu $11,$11,4
        addiu $9,$9,1
        slti $1,$9,7
        bnez $1,@(queens_board-$-1)
        j @leave

; Adds to $2 in how many ways queens stand in this row and those behind it; $7 has a bit for each column, $4 those that have a queen, $5 and $6
; those of this row that a queen takes aslant.
queens_row:
        beq $4,$7,@(queens_found-$-1)
        or $1,$4,$5
        or $1,$1,$6
        not $1,$1
        and $1,$1,$7
queens_try:
        blez $1,@(queens_end-$-1)
        negu $3,$1
        and $3,$3,$1
        xor $1,$1,$3
        addiu $12,$12,-20
        sw $15,0($12)
        sw $1,4($12)
        sw $4,8($12)
        sw $5,12($12)
        sw $6,16($12)
        or $4,$4,$3
        or $5,$5,$3
        sll $5,$5,0x1
        or $6,$6,$3
        srl $6,$6,0x1
        jal @queens_row
        lw $15,0($12)
        lw $1,4($12)
        lw $4,8($12)
        lw $5,12($12)
        lw $6,16($12)
        addiu $12,$12,20
        b @(queens_try-$-1)
queens_found:
        addiu $2,$2,1
queens_end:
        jr $15

; The least number that all from 1 to 12 divide, and the greatest that divides 102,334,155 and 832,040.
common: addiu $12,$12,-4
        sw $15,0($12)
        li $10,1
        li $9,2
common_next:
        move $4,$10
        move $5,$9
        jal @divisor
        move $4,$9
        move $5,$2
        jal @divide
        mult $10,$4
        mflo $10
        addiu $9,$9,1
        slti $1,$9,13
        bnez $1,@(common_next-$-1)
        sw $10,0($11)
        addiu $11,$11,4
        lui $4,0x619
        ori $4,$4,0x7ecb
        lui $5,0xc
        ori $5,$5,0xb228
        jal @divisor
        j @keep_leave

; The greatest number that divides $4 and $5, by halves and differences.
divisor:
        li $3,0
divisor_both:
        or $1,$4,$5
        andi $1,$1,0x1
        bnez $1,@(divisor_first-$-1)
        srl $4,$4,0x1
        srl $5,$5,0x1
        addiu $3,$3,1
        b @(divisor_both-$-1)
divisor_half:
        srl $4,$4,0x1
divisor_first:
        andi $1,$4,0x1
        beqz $1,@(divisor_half-$-1)
divisor_second:
        andi $1,$5,0x1
        bnez $1,@(divisor_less-$-1)
        srl $5,$5,0x1
        b @(divisor_second-$-1)
divisor_less:
        beq $4,$5,@(divisor_end-$-1)
        sltu $1,$4,$5
        bnez $1,@(divisor_other-$-1)
        subu $4,$4,$5
        b @(divisor_first-$-1)
divisor_other:
        subu $5,$5,$4
        b @(divisor_second-$-1)
divisor_end:
        sllv $2,$4,$3
        jr $15

; The square roots of 2,000,000,000 and of 2^32 - 1, rounded down.
root:   lui $4,0x7735
        ori $4,$4,0x9400
        li $7,2
root_of:
        li $2,0
        lui $3,0x4000
root_bit:
        addu $1,$2,$3
        srl $2,$2,0x1
        sltu $5,$4,$1
        bnez $5,@(root_less-$-1)
        subu $4,$4,$1
        addu $2,$2,$3
root_less:
        srl $3,$3,0x2
        bnez $3,@(root_bit-$-1)
        sw $2,0($11)
        addiu $11,$11,4
        not $4,$0
        addiu $7,$7,-1
        bgtz $7,@(root_of-$-1)
        jr $15

; $4 times $5: the lower word in $2, the upper one in $3.
product:
        andi $1,$4,0xffff
        srl $6,$4,0x10
        andi $7,$5,0xffff
        srl $8,$5,0x10
        mult $1,$7
        mflo $2
        mult $6,$7
        mflo $7
        mult $1,$8
        mflo $1
        mult $6,$8
        mflo $3
        addu $1,$1,$7
        sltu $7,$1,$7
        sll $7,$7,0x10
        addu $3,$3,$7
        srl $7,$1,0x10
        addu $3,$3,$7
        sll $1,$1,0x10
        addu $2,$2,$1
        sltu $1,$2,$1
        addu $3,$3,$1
        jr $15

; 20!, two words.
factorial:
        addiu $12,$12,-4
        sw $15,0($12)
        li $4,1
        li $9,0
        li $5,1
factorial_next:
        addiu $5,$5,1
        jal @product
        move $4,$2
        mult $9,$5
        mflo $9
        addu $9,$9,$3
        slti $1,$5,20
        bnez $1,@(factorial_next-$-1)
        sw $9,0($11)
        addiu $11,$11,4
        j @keep_leave

; 2^32 - 1 in decimal digits, twelve bytes with blanks before them.
decimal:
        addiu $12,$12,-4
        sw $15,0($12)
        not $4,$0
        li $5,10
        addiu $7,$11,11
decimal_digit:
        jal @divide
        addiu $3,$3,48
        sb $3,0($7)
        addiu $7,$7,-1
        bnez $4,@(decimal_digit-$-1)
        li $3,32
decimal_blank:
        sb $3,0($7)
        addiu $7,$7,-1
        sltu $1,$7,$11
        beqz $1,@(decimal_blank-$-1)
        addiu $11,$11,12
        j @leave

; The 100th number of Fibonacci, three words.
fibonacci:
        li $1,0
        li $2,0
        li $3,0
        li $4,1
        li $5,0
        li $6,0
        li $7,100
fibonacci_next:
        addu $8,$1,$4
        sltu $9,$8,$4
        addu $10,$2,$5
        sltu $2,$10,$5
        addu $3,$3,$6
        addu $3,$3,$2
        addu $10,$10,$9
        sltu $9,$10,$9
        addu $9,$3,$9
        move $1,$4
        move $2,$5
        move $3,$6
        move $4,$8
        move $5,$10
        move $6,$9
        addiu $7,$7,-1
        bgtz $7,@(fibonacci_next-$-1)
        sw $3,0($11)
        sw $2,4($11)
        sw $1,8($11)
        addiu $11,$11,12
        jr $15

; Life on 16 rows of 32 cells, whose ends meet: how many are alive six generations after the five of `cells`, and the hash of the rows.
life:   addiu $12,$12,-4
        sw $15,0($12)
        li $10,60
life_clear:
        sw $0,@room($10)
        addiu $10,$10,-4
        bgez $10,@(life_clear-$-1)
        lw $1,@cells($0)
        sw $1,@(room+28)($0)
        lw $1,@(cells+4)($0)
        sw $1,@(room+32)($0)
        lw $1,@(cells+8)($0)
        sw $1,@(room+36)($0)
        li $6,6
life_again:
        li $10,60
life_row:
        addiu $1,$10,-4         ; the three above: $7 where an odd number of them is alive, $8 where two are
        jal @life_sides
        and $4,$2,$1
        xor $7,$2,$1
        or $8,$3,$4
        addiu $1,$10,4          ; and the three below: $8 where there is a pair, $9 where there are more
        jal @life_sides
        and $4,$2,$1
        xor $2,$2,$1
        or $3,$3,$4
        and $9,$8,$3
        or $8,$8,$3
        and $4,$7,$2
        xor $7,$7,$2
        and $5,$8,$4
        or $9,$9,$5
        or $8,$8,$4
        move $1,$10             ; and the two beside it
        jal @life_sides
        and $5,$8,$3
        or $9,$9,$5
        or $8,$8,$3
        and $4,$7,$2
        xor $7,$7,$2
        and $5,$8,$4
        or $9,$9,$5
        or $8,$8,$4
        or $7,$7,$1             ; one pair, and one more or itself alive
        and $7,$7,$8
        not $9,$9
        and $7,$7,$9
        sw $7,@(room+64)($10)
        addiu $10,$10,-4
        bgez $10,@(life_row-$-1)
        li $10,60
life_copy:
        lw $1,@(room+64)($10)
        sw $1,@room($10)
        addiu $10,$10,-4
        bgez $10,@(life_copy-$-1)
        addiu $6,$6,-1
        bgtz $6,@(life_again-$-1)
        li $2,0
        li $10,60
life_count:
        lw $1,@room($10)
        beqz $1,@(life_counted-$-1)
life_cell:
        addiu $2,$2,1
        addiu $3,$1,-1          ; without its lowest one
        and $1,$1,$3
        bnez $1,@(life_cell-$-1)
life_counted:
        addiu $10,$10,-4
        bgez $10,@(life_count-$-1)
        sw $2,0($11)
        addiu $11,$11,4
        li $4,@room
        addiu $5,$4,64
        jal @hash_of
        j @keep_leave

; Of the row at $1: itself in $1, where one of the two beside a cell is alive in $2, where both are in $3.
life_sides:
        andi $1,$1,0x3c
        lw $1,@room($1)
        sll $4,$1,0x1
        srl $5,$1,0x1f
        or $4,$4,$5
        srl $5,$1,0x1
        sll $3,$1,0x1f
        or $5,$5,$3
        xor $2,$4,$5
        and $3,$4,$5
        jr $15

; 10!, by the bytes of `code` for a machine of eight instructions with a stack of its own: halt, push, load, store, times, minus, twice, back.
bytes:  li $4,@code
        move $5,$12
bytes_next:
        lbu $1,0($4)
        addiu $4,$4,1
        sll $1,$1,0x2
        addiu $1,$1,@(bytes_table+bytes_table+bytes_table+bytes_table)
        jr $1
bytes_table:
        j @bytes_halt
        j @bytes_push
        j @bytes_load
        j @bytes_store
        j @bytes_times
        j @bytes_minus
        j @bytes_twice
        j @bytes_back
bytes_load:
        lbu $1,0($4)
        addiu $4,$4,1
        lw $1,@room($1)
        b @(bytes_put-$-1)
bytes_twice:
        lw $1,0($5)
        b @(bytes_put-$-1)
bytes_push:
        lbu $1,0($4)
        addiu $4,$4,1
bytes_put:
        addiu $5,$5,-4
        sw $1,0($5)
        b @(bytes_next-$-1)
bytes_store:
        lbu $1,0($4)
        addiu $4,$4,1
        lw $2,0($5)
        addiu $5,$5,4
        sw $2,@room($1)
        b @(bytes_next-$-1)
bytes_times:
        lw $1,0($5)
        lw $2,4($5)
        addiu $5,$5,4
        mult $1,$2
        mflo $1
        sw $1,0($5)
        b @(bytes_next-$-1)
bytes_minus:
        lw $1,0($5)
        lw $2,4($5)
        addiu $5,$5,4
        subu $1,$2,$1
        sw $1,0($5)
        b @(bytes_next-$-1)
bytes_back:
        lbu $1,0($4)
        addiu $4,$4,1
        lw $2,0($5)
        addiu $5,$5,4
        beqz $2,@(bytes_next-$-1)
        subu $4,$4,$1
        b @(bytes_next-$-1)
bytes_halt:
        lw $2,0($5)
        j @keep

; Products of the pairs of `floats`, numbers of 32 bits by IEEE 754, rounded to the nearest one, and to an even one where two are as near.
float:  addiu $12,$12,-4
        sw $15,0($12)
        li $9,@floats
float_next:
        lw $4,0($9)
        beqz $4,@(leave-$-1)
        lw $5,4($9)
        addiu $9,$9,8
        srl $10,$4,0x17
        andi $10,$10,0xff
        srl $1,$5,0x17
        andi $1,$1,0xff
        addu $10,$10,$1         ; the sum of the exponents
        xor $1,$4,$5
        srl $1,$1,0x1f
        sll $1,$1,0x8
        addu $10,$10,$1         ; and the sign above it
        lui $1,0x8000
        sll $4,$4,0x8
        or $4,$4,$1
        sll $5,$5,0x8
        or $5,$5,$1
        jal @product
        bltz $3,@(float_round-$-1)
        addiu $10,$10,-1        ; below 2
        sll $3,$3,0x1
        srl $1,$2,0x1f
        or $3,$3,$1
        sll $2,$2,0x1
float_round:
        sltu $1,$0,$2           ; whether more follows, as the last bit
        or $3,$3,$1
        srl $2,$3,0x8
        andi $3,$3,0xff
        andi $1,$2,0x1
        addu $3,$3,$1
        slti $1,$3,129
        xori $1,$1,0x1
        addu $2,$2,$1
        addiu $10,$10,-127
        sll $10,$10,0x17
        addu $2,$2,$10
        sw $2,0($11)
        addiu $11,$11,4
        b @(float_next-$-1)

; Sine and cosine of -60 degrees as parts of 65536, by 16 turns one way or the other, whose tangents are halves of each other.
sine:   lui $1,0x9b7
        ori $1,$1,0x4edb
        li $2,0
        lui $3,0xef3e
        ori $3,$3,0xadc8
        li $4,0
sine_turn:
        sll $5,$4,0x2
        lw $5,@angles($5)
        srav $6,$2,$4
        srav $7,$1,$4
        bltz $3,@(sine_back-$-1)
        subu $1,$1,$6
        addu $2,$2,$7
        subu $3,$3,$5
        b @(sine_next-$-1)
sine_back:
        addu $1,$1,$6
        subu $2,$2,$7
        addu $3,$3,$5
sine_next:
        addiu $4,$4,1
        sltiu $5,$4,16
        bnez $5,@(sine_turn-$-1)
        sra $2,$2,0xc
        sw $2,0($11)
        sra $1,$1,0xc
        sw $1,4($11)
        addiu $11,$11,8
        jr $15

; Which letters stand in the text, a bit for each.
letters:
        li $2,0
        li $3,1
        li $4,@text
        addiu $5,$4,@length
letters_next:
        lbu $1,0($4)
        addiu $4,$4,1
        ori $1,$1,0x20
        addiu $1,$1,-97
        sltiu $6,$1,26
        beqz $6,@(letters_other-$-1)
        sllv $1,$3,$1
        or $2,$2,$1
letters_other:
        bne $4,$5,@(letters_next-$-1)
        j @keep

; The byte of the text at which `sought` begins.
search: lw $4,@sought($0)
        li $3,0
        li $2,-4
search_next:
        lbu $1,@(text+4)($2)
        addiu $2,$2,1
        sll $3,$3,0x8
        or $3,$3,$1
        bne $3,$4,@(search_next-$-1)
        j @keep

; How many steps lead from 27 to 1, where an even number goes to its half, and an odd one to three times it and 1.
steps:  li $1,27
        li $2,0
steps_next:
        srl $3,$1,0x1
        andi $4,$1,0x1
        addiu $2,$2,1
        beqz $4,@(steps_even-$-1)
        addiu $2,$2,1           ; what comes behind an odd one is even
        addu $3,$3,$1
        addiu $3,$3,1
steps_even:
        move $1,$3
        addiu $3,$1,-1
        bgtz $3,@(steps_next-$-1)
        j @keep

; ---- the data

        .section data
        .space 64               ; 0, the results

; 256, what they are to be
        .word 0xeb207800, 0xcbf43926, 0x414fa339                                ; CRC-32
        .word 0x5bdc0fda                                                        ; Adler-32
        .word 0x9e107d9d, 0x372bb682, 0x6bd81d35, 0x42a419d6                    ; MD5
        .word 0x2fd4e1c6, 0x7a2d28fc, 0xed849ee1, 0xbb76e739, 0x1b93eb12        ; SHA-1
        .word 0x497df3d0, 0x72612cb5, 0x41424344, 0x45464748                    ; XTEA
        .word 0xd01a1576, 0xd01a1576, 0, 0xec38345e                             ; quicksort
        .word 0xf946de9                                                         ; heapsort
        .word 0xda5caae2, 0x9112e262                                            ; matrices
        .word 95, 21536                                                         ; primes
        .word 2, 10, 4                                                          ; queens
        .word 27720, 55                                                         ; divisors
        .word 44721, 65535                                                      ; roots
        .word 0x21c3677c, 0x82b40000                                            ; 20!
        .word 0x20203432, 0x39343936, 0x37323935                                ; digits
        .word 0x13, 0x33db76a7, 0xc594bfc3                                      ; Fibonacci
        .word 12, 0x40198000                                                    ; Life
        .word 3628800                                                           ; 10!
        .word 0x4108a2c0, 0xbfd33334, 0x3c23d70b                                ; products
        .word -56756, 32768                                                     ; sine, cosine
        .word 0x3ffffff                                                         ; letters
        .word 35                                                                ; place
        .word 111                                                               ; steps

; 464, where the parts are, and 0 behind the last
        .word @(crc+crc+crc+crc), @(adler+adler+adler+adler), @(md5+md5+md5+md5), @(sha+sha+sha+sha), @(xtea+xtea+xtea+xtea)
        .word @(sort+sort+sort+sort), @(heap+heap+heap+heap), @(matrix+matrix+matrix+matrix), @(sieve+sieve+sieve+sieve)
        .word @(queens+queens+queens+queens), @(common+common+common+common), @(root+root+root+root)
        .word @(factorial+factorial+factorial+factorial), @(decimal+decimal+decimal+decimal), @(fibonacci+fibonacci+fibonacci+fibonacci)
        .word @(life+life+life+life), @(bytes+bytes+bytes+bytes), @(float+float+float+float), @(sine+sine+sine+sine)
        .word @(letters+letters+letters+letters), @(search+search+search+search), @(steps+steps+steps+steps), 0

; 556, "The quick brown fox jumps over the lazy dog"
        .word 0x54686520, 0x71756963, 0x6b206272, 0x6f776e20, 0x666f7820, 0x6a756d70, 0x73206f76, 0x65722074, 0x6865206c, 0x617a7920, 0x646f6700

; 600, "123456789"; 612, "lazy"
        .word 0x31323334, 0x35363738, 0x39000000
        .word 0x6c617a79

; 616, the first words of MD5, of which SHA-1 has one more
        .word 0x67452301, 0xefcdab89, 0x98badcfe, 0x10325476, 0xc3d2e1f0

; 636, the sines of the numbers from 1 to 64, without their signs and times 2^32
        .word 0xd76aa478, 0xe8c7b756, 0x242070db, 0xc1bdceee, 0xf57c0faf, 0x4787c62a, 0xa8304613, 0xfd469501
        .word 0x698098d8, 0x8b44f7af, 0xffff5bb1, 0x895cd7be, 0x6b901122, 0xfd987193, 0xa679438e, 0x49b40821
        .word 0xf61e2562, 0xc040b340, 0x265e5a51, 0xe9b6c7aa, 0xd62f105d, 0x2441453, 0xd8a1e681, 0xe7d3fbc8
        .word 0x21e1cde6, 0xc33707d6, 0xf4d50d87, 0x455a14ed, 0xa9e3e905, 0xfcefa3f8, 0x676f02d9, 0x8d2a4c8a
        .word 0xfffa3942, 0x8771f681, 0x6d9d6122, 0xfde5380c, 0xa4beea44, 0x4bdecfa9, 0xf6bb4b60, 0xbebfbc70
        .word 0x289b7ec6, 0xeaa127fa, 0xd4ef3085, 0x4881d05, 0xd9d4d039, 0xe6db99e5, 0x1fa27cf8, 0xc4ac5665
        .word 0xf4292244, 0x432aff97, 0xab9423a7, 0xfc93a039, 0x655b59c3, 0x8f0ccc92, 0xffeff47d, 0x85845dd1
        .word 0x6fa87e4f, 0xfe2ce6e0, 0xa3014314, 0x4e0811a1, 0xf7537e82, 0xbd3af235, 0x2ad7d2bb, 0xeb86d391

; 892, by how many bits the steps of MD5 turn, four for each round
        .word 0x70c1116, 0x5090e14, 0x40b1017, 0x60a0f15

; 908, the key of XTEA; 924, its two words
        .word 0x10203, 0x4050607, 0x8090a0b, 0xc0d0e0f
        .word 0x41424344, 0x45464748

; 932, three rows of Life
        .word 0x18000, 0x30000, 0x10000

; 944: push 1, store 0, push 10, store 4; load 0, load 4, times, store 0, load 4, push 1, minus, twice, store 4, 17 back; load 0, halt
        .word 0x1010300, 0x10a0304, 0x2000204, 0x4030002, 0x4010105, 0x6030407, 0x11020000

; 972, pi and e, -1.5 and 1.1, 0.1 and itself; 0 behind them
        .word 0x40490fdb, 0x402df854, 0xbfc00000, 0x3f8ccccd, 0x3dcccccd, 0x3dcccccd, 0

; 1000, the angles whose tangents are 1, 1/2, 1/4 .., times 2^28
        .word 0xc90fdaa, 0x76b19c1, 0x3eb6ebf, 0x1fd5baa, 0xffaade, 0x7ff557, 0x3ffeab, 0x1fffd5
        .word 0xffffb, 0x7ffff, 0x40000, 0x20000, 0x10000, 0x8000, 0x4000, 0x2000
