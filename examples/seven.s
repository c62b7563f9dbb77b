mov64 r0, 7
exit
