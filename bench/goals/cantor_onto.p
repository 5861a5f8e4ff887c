% No map leads from things onto all sets of things.
thf(goal,conjecture,( ~ ? [G:$i>$i>$o] : ! [F:$i>$o] : ? [X:$i] : ( ( G @ X ) = F ) )).
