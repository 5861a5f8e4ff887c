% There is a way from one town to another over two roads of many.
thf(town_type,type,town: $i>$o).
thf(road_type,type,road: $i>$i>$o).
thf(way_type,type,way: $i>$i>$o).
thf(t0_type,type,t0: $i).
thf(t1_type,type,t1: $i).
thf(t2_type,type,t2: $i).
thf(t3_type,type,t3: $i).
thf(t4_type,type,t4: $i).
thf(t5_type,type,t5: $i).
thf(t6_type,type,t6: $i).
thf(t7_type,type,t7: $i).
thf(t8_type,type,t8: $i).
thf(t9_type,type,t9: $i).
thf(t10_type,type,t10: $i).
thf(t11_type,type,t11: $i).
thf(t12_type,type,t12: $i).
thf(t13_type,type,t13: $i).
thf(a1,axiom,( ! [X:$i,Y:$i] : ( ( road @ X @ Y ) => ( way @ X @ Y ) ) )).
thf(a2,axiom,( ! [X:$i,Y:$i,Z:$i] : ( ( ( way @ X @ Y ) & ( way @ Y @ Z ) ) => ( way @ X @ Z ) ) )).
thf(a3,axiom,( ( road @ t0 @ t3 ) )).
thf(a4,axiom,( ( road @ t1 @ t8 ) )).
thf(a5,axiom,( ( road @ t2 @ t13 ) )).
thf(a6,axiom,( ( road @ t3 @ t4 ) )).
thf(a7,axiom,( ( road @ t4 @ t9 ) )).
thf(a8,axiom,( ( road @ t5 @ t0 ) )).
thf(a9,axiom,( ( road @ t6 @ t5 ) )).
thf(a10,axiom,( ( road @ t7 @ t10 ) )).
thf(a11,axiom,( ( road @ t8 @ t1 ) )).
thf(a12,axiom,( ( road @ t9 @ t6 ) )).
thf(a13,axiom,( ( road @ t10 @ t11 ) )).
thf(a14,axiom,( ( road @ t11 @ t2 ) )).
thf(a15,axiom,( ( road @ t12 @ t7 ) )).
thf(a16,axiom,( ( road @ t13 @ t12 ) )).
thf(a17,axiom,( ( town @ t0 ) )).
thf(a18,axiom,( ( town @ t1 ) )).
thf(a19,axiom,( ( town @ t2 ) )).
thf(a20,axiom,( ( town @ t3 ) )).
thf(a21,axiom,( ( town @ t4 ) )).
thf(a22,axiom,( ( town @ t5 ) )).
thf(a23,axiom,( ( town @ t6 ) )).
thf(a24,axiom,( ( town @ t7 ) )).
thf(a25,axiom,( ( town @ t8 ) )).
thf(a26,axiom,( ( town @ t9 ) )).
thf(a27,axiom,( ( town @ t10 ) )).
thf(a28,axiom,( ( town @ t11 ) )).
thf(a29,axiom,( ( town @ t12 ) )).
thf(a30,axiom,( ( town @ t13 ) )).
thf(goal,conjecture,( ( way @ t0 @ t4 ) )).
