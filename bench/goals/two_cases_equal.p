% Of each of two pairs of equations one holds: then one of a third pair does.
thf(a_type,type,a: $i).
thf(b_type,type,b: $i).
thf(c_type,type,c: $i).
thf(d_type,type,d: $i).
thf(a1,axiom,( ( a = b ) | ( c = d ) )).
thf(a2,axiom,( ( a = c ) | ( b = d ) )).
thf(goal,conjecture,( ( a = d ) | ( b = c ) )).
