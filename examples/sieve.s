; The primes below 1,000, by the sieve of Eratosthenes, for the machine of mips.lisa. A byte of the data memory for each number is 1
; where a smaller number divides it. At the end $2 is how many primes there are, 168, and so is the first cell of the data memory.
        .section prog
        li $4,1000
        li $5,1
        li $2,0
        li $3,2
next:   lbu $6,0($3)
        bnez $6,@(step-$-1)
        addiu $2,$2,1
        addu $7,$3,$3
mark:   sltu $8,$7,$4           ; each multiple below the end
        beqz $8,@(step-$-1)
        sb $5,0($7)
        addu $7,$7,$3
        b @(mark-$-1)
step:   addiu $3,$3,1
        sltu $8,$3,$4
        bnez $8,@(next-$-1)
        sw $2,0($0)
done:   b @(done-$-1)
