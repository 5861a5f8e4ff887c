% In a lattice the absorption laws make the meet of a thing with itself the thing.
thf(meet_type,type,meet: $i>$i>$i).
thf(join_type,type,join: $i>$i>$i).
thf(a1,axiom,( ! [X:$i,Y:$i] : ( ( meet @ X @ ( join @ X @ Y ) ) = X ) )).
thf(a2,axiom,( ! [X:$i,Y:$i] : ( ( join @ X @ ( meet @ X @ Y ) ) = X ) )).
thf(goal,conjecture,( ! [X:$i] : ( ( meet @ X @ X ) = X ) )).
