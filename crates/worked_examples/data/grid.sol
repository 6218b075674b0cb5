33D32945 STP File, STP Format Version 1.0
SECTION Comment
Name "grid.stp"
Program "steiner"
Remark "optimal"
END
SECTION Solutions
Solution 0 22
END
SECTION Run
Threads 1
Time 0
Dual 22
Primal 22
END
SECTION Finalsolution
Vertices 11
V 1
V 5
V 6
V 9
V 10
V 11
V 12
V 13
V 14
V 15
V 16
Edges 10
E 1 6
E 5 9
E 6 10
E 9 13
E 10 14
E 11 12
E 11 16
E 12 13
E 14 15
E 15 16
END
EOF
