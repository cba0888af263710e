.section prog
.global start
start: BR @(far-$-2)
