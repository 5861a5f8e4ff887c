% There is a function that does nothing.
thf(goal,conjecture,( ? [F:$i>$i] : ! [X:$i] : ( ( F @ X ) = X ) )).
