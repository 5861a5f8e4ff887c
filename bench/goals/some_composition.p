% Two functions have a composition.
thf(f_type,type,f: $i>$i).
thf(g_type,type,g: $i>$i).
thf(goal,conjecture,( ? [H:$i>$i] : ! [X:$i] : ( ( H @ X ) = ( f @ ( g @ X ) ) ) )).
