% What holds of truth and of falsity holds of each truth value.
thf(g_type,type,g: $o>$o).
thf(a1,axiom,( ( g @ $true ) )).
thf(a2,axiom,( ( g @ $false ) )).
thf(goal,conjecture,( ! [P:$o] : ( g @ P ) )).
