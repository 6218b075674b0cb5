33D32945 STP File, STP Format Version 1.0
SECTION Comment
Name "triangle.stp"
Program "steiner"
Remark "optimal"
END
SECTION Solutions
Solution 0 6
END
SECTION Run
Threads 1
Time 0
Dual 6
Primal 6
END
SECTION Finalsolution
Vertices 4
V 1
V 2
V 3
V 4
Edges 3
E 1 4
E 2 4
E 3 4
END
EOF
