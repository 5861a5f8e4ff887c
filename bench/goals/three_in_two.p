% Three guests in two rooms: two guests share a room.
thf(a1_type,type,a1: $o).
thf(a2_type,type,a2: $o).
thf(b1_type,type,b1: $o).
thf(b2_type,type,b2: $o).
thf(c1_type,type,c1: $o).
thf(c2_type,type,c2: $o).
thf(a1,axiom,( ( a1 | a2 ) & ( b1 | b2 ) & ( c1 | c2 ) )).
thf(goal,conjecture,( ( a1 & b1 ) | ( a1 & c1 ) | ( b1 & c1 ) | ( a2 & b2 ) | ( a2 & c2 ) | ( b2 & c2 ) )).
