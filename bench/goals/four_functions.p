% A function of truth values is constant, does nothing or denies.
thf(f_type,type,f: $o>$o).
thf(goal,conjecture,( ( f = ( ^ [X:$o] : X ) ) | ( f = ( ^ [X:$o] : ~ X ) ) | ( f = ( ^ [X:$o] : $true ) ) | ( f = ( ^ [X:$o] : $false ) ) )).
