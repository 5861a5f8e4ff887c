% There is a union of two of many sets.
thf(u0_type,type,u0: $i>$i).
thf(u1_type,type,u1: $i>$i).
thf(u2_type,type,u2: $i>$i).
thf(u3_type,type,u3: $i>$i).
thf(u4_type,type,u4: $i>$i).
thf(u5_type,type,u5: $i>$i).
thf(u6_type,type,u6: $i>$i).
thf(u7_type,type,u7: $i>$i).
thf(q0_type,type,q0: $i>$o).
thf(q1_type,type,q1: $i>$o).
thf(q2_type,type,q2: $i>$o).
thf(q3_type,type,q3: $i>$o).
thf(q4_type,type,q4: $i>$o).
thf(q5_type,type,q5: $i>$o).
thf(q6_type,type,q6: $i>$o).
thf(q7_type,type,q7: $i>$o).
thf(a_type,type,a: $i).
thf(b_type,type,b: $i).
thf(goal,conjecture,( ? [S:$i>$o] : ! [X:$i] : ( ( S @ X ) <=> ( ( q1 @ X ) | ( q5 @ X ) ) ) )).
