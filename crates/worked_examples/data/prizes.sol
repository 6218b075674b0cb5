33D32945 STP File, STP Format Version 1.0
SECTION Comment
Name "prizes.stp"
Program "steiner"
Remark "optimal"
END
SECTION Solutions
Solution 0 16
END
SECTION Run
Threads 1
Time 0
Dual 16
Primal 16
END
SECTION Finalsolution
Vertices 5
V 1
V 3
V 4
V 5
V 6
Edges 4
E 1 3
E 3 5
E 4 5
E 4 6
END
EOF
