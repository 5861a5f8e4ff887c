% What holds of two predicates joined holds of them joined the other way around, under two functions.
thf(h_type,type,h: ($i>$o)>$i).
thf(k_type,type,k: $i>$o).
thf(p_type,type,p: $i>$o).
thf(q_type,type,q: $i>$o).
thf(a1,axiom,( ( k @ ( h @ ^ [X:$i] : ( ( p @ X ) => ( q @ X ) ) ) ) )).
thf(goal,conjecture,( ( k @ ( h @ ^ [X:$i] : ( ( ~ ( q @ X ) ) => ~ ( p @ X ) ) ) ) )).
