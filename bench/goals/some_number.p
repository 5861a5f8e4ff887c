% Some number and two is three, where numbers are iterations.
thf(goal,conjecture,( ? [N:($i>$i)>$i>$i] : ! [F:$i>$i,X:$i] : ( ( N @ F @ ( F @ ( F @ X ) ) ) = ( F @ ( F @ ( F @ X ) ) ) ) )).
