% A function of truth values does the third time what it did the first time.
thf(f_type,type,f: $o>$o).
thf(goal,conjecture,( ! [P:$o] : ( ( f @ ( f @ ( f @ P ) ) ) = ( f @ P ) ) )).
