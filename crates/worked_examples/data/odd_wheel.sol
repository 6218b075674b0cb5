33D32945 STP File, STP Format Version 1.0
SECTION Comment
Name "odd_wheel.stp"
Program "steiner"
Remark "optimal"
END
SECTION Solutions
Solution 0 10
END
SECTION Run
Threads 1
Time 0
Dual 10
Primal 10
END
SECTION Finalsolution
Vertices 6
V 1
V 2
V 3
V 5
V 6
V 7
Edges 5
E 1 2
E 1 3
E 2 5
E 2 7
E 3 6
END
EOF
