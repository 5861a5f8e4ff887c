% No map from sets of things to things is one to one.
thf(goal,conjecture,( ~ ? [H:($i>$o)>$i] : ! [F:$i>$o,G:$i>$o] : ( ( ( H @ F ) = ( H @ G ) ) => ( F = G ) ) )).
