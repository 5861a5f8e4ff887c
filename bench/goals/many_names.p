% What holds of a thing holds of one that shares its properties, where there are many names.
thf(u0_type,type,u0: $i>$i).
thf(u1_type,type,u1: $i>$i).
thf(u2_type,type,u2: $i>$i).
thf(u3_type,type,u3: $i>$i).
thf(u4_type,type,u4: $i>$i).
thf(u5_type,type,u5: $i>$i).
thf(u6_type,type,u6: $i>$i).
thf(u7_type,type,u7: $i>$i).
thf(q0_type,type,q0: $i>$o).
thf(q1_type,type,q1: $i>$o).
thf(q2_type,type,q2: $i>$o).
thf(q3_type,type,q3: $i>$o).
thf(q4_type,type,q4: $i>$o).
thf(q5_type,type,q5: $i>$o).
thf(q6_type,type,q6: $i>$o).
thf(q7_type,type,q7: $i>$o).
thf(a_type,type,a: $i).
thf(b_type,type,b: $i).
thf(a1,axiom,( ! [P:$i>$o] : ( ( P @ a ) => ( P @ b ) ) )).
thf(a2,axiom,( ! [X:$i] : ( ( q0 @ X ) => ( q1 @ ( u0 @ X ) ) ) )).
thf(a3,axiom,( ! [X:$i] : ( ( q1 @ X ) => ( q2 @ ( u1 @ X ) ) ) )).
thf(a4,axiom,( ! [X:$i] : ( ( q2 @ X ) => ( q3 @ ( u2 @ X ) ) ) )).
thf(a5,axiom,( ! [X:$i] : ( ( q3 @ X ) => ( q4 @ ( u3 @ X ) ) ) )).
thf(a6,axiom,( ! [X:$i] : ( ( q4 @ X ) => ( q5 @ ( u4 @ X ) ) ) )).
thf(a7,axiom,( ! [X:$i] : ( ( q5 @ X ) => ( q6 @ ( u5 @ X ) ) ) )).
thf(a8,axiom,( ! [X:$i] : ( ( q6 @ X ) => ( q7 @ ( u6 @ X ) ) ) )).
thf(a9,axiom,( ! [X:$i] : ( ( q7 @ X ) => ( q0 @ ( u7 @ X ) ) ) )).
thf(a10,axiom,( ( q2 @ a ) )).
thf(goal,conjecture,( ( q3 @ ( u2 @ b ) ) )).
