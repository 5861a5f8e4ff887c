% What holds of nothing and of each something holds of each option.
thf(opt_type,type,opt: $tType).
thf(none_type,type,none: opt).
thf(some_type,type,some: $i>opt).
thf(p_type,type,p: opt>$o).
thf(q_type,type,q: $i>$o).
thf(a1,axiom,( ! [X:opt] : ( ( X = none ) | ? [Y:$i] : ( X = ( some @ Y ) ) ) )).
thf(a2,axiom,( ( p @ none ) )).
thf(a3,axiom,( ! [Y:$i] : ( ( q @ Y ) => ( p @ ( some @ Y ) ) ) )).
thf(a4,axiom,( ! [Y:$i] : ( q @ Y ) )).
thf(goal,conjecture,( ! [X:opt] : ( p @ X ) )).
