% There is a function that chooses from each set that has a member.
thf(goal,conjecture,( ? [E:($i>$o)>$i] : ! [P:$i>$o] : ( ( ? [X:$i] : ( P @ X ) ) => ( P @ ( E @ P ) ) ) )).
