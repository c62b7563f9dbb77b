# Two instructions, and then three or eight.
        call coin
        jeq r0, 0, long
        mov64 r0, 1
        add64 r0, 1
        exit
long:   mov64 r1, 1
        add64 r0, r1
        add64 r0, r1
        add64 r0, r1
        add64 r0, r1
        add64 r0, r1
        add64 r0, r1
        exit
