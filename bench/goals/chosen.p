% The chosen thing has the property, where some thing has it.
thf(p_type,type,p: $i>$o).
thf(q_type,type,q: $i>$o).
thf(f_type,type,f: $i>$i).
thf(a_type,type,a: $i).
thf(a1,axiom,( ( p @ ( f @ a ) ) )).
thf(a2,axiom,( ! [X:$i] : ( ( p @ X ) => ( q @ X ) ) )).
thf(goal,conjecture,( ( q @ @+ [X:$i] : ( p @ X ) ) )).
