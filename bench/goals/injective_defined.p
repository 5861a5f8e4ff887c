% By definitions: the composition of functions that are one to one is so.
thf(inj_type,type,inj: ($i>$i)>$o).
thf(comp_type,type,comp: ($i>$i)>($i>$i)>$i>$i).
thf(f_type,type,f: $i>$i).
thf(g_type,type,g: $i>$i).
thf(inj_is,definition,( inj = ( ^ [F:$i>$i] : ! [X:$i,Y:$i] : ( ( ( F @ X ) = ( F @ Y ) ) => ( X = Y ) ) ) )).
thf(comp_is,definition,( comp = ( ^ [F:$i>$i,G:$i>$i,X:$i] : ( F @ ( G @ X ) ) ) )).
thf(a3,axiom,( ( inj @ f ) )).
thf(a4,axiom,( ( inj @ g ) )).
thf(goal,conjecture,( ( inj @ ( comp @ f @ g ) ) )).
