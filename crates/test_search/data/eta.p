thf(p,type,p: ( $i > $i ) > $o).
thf(f,type,f: $i > $i).
thf(a,axiom,( p @ f )).
thf(c,conjecture,( p @ ( ^ [X:$i] : ( f @ X ) ) )).
