.section prog
start: ADD 7
ADD @(start+1)
ADD 128
NOP
