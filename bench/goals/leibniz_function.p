% Things that share all properties are taken to such ones.
thf(f_type,type,f: $i>$i).
thf(a_type,type,a: $i).
thf(b_type,type,b: $i).
thf(a1,axiom,( ! [P:$i>$o] : ( ( P @ a ) => ( P @ b ) ) )).
thf(goal,conjecture,( ! [P:$i>$o] : ( ( P @ ( f @ a ) ) => ( P @ ( f @ b ) ) ) )).
