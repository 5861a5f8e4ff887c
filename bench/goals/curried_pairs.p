% Pairs with their parts: the parts of equal pairs are equal.
thf(pair_type,type,pair: $tType).
thf(mk_type,type,mk: $i>$i>pair).
thf(fst_type,type,fst: pair>$i).
thf(snd_type,type,snd: pair>$i).
thf(a_type,type,a: $i).
thf(b_type,type,b: $i).
thf(c_type,type,c: $i).
thf(d_type,type,d: $i).
thf(a1,axiom,( ! [X:$i,Y:$i] : ( ( fst @ ( mk @ X @ Y ) ) = X ) )).
thf(a2,axiom,( ! [X:$i,Y:$i] : ( ( snd @ ( mk @ X @ Y ) ) = Y ) )).
thf(a3,axiom,( ( mk @ a @ b ) = ( mk @ c @ d ) )).
thf(goal,conjecture,( ( a = c ) & ( b = d ) )).
