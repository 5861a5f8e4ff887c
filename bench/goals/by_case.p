% There is a function that goes by a case.
thf(a_type,type,a: $i).
thf(b_type,type,b: $i).
thf(goal,conjecture,( ? [F:$o>$i] : ( ( ( F @ $true ) = a ) & ( ( F @ $false ) = b ) ) )).
