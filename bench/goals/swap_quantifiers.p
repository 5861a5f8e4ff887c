% Where a function chooses for all at once, one may quantify in either order.
thf(r_type,type,r: $i>$i>$o).
thf(goal,conjecture,( ( ? [F:$i>$i] : ! [X:$i] : ( r @ X @ ( F @ X ) ) ) <=> ! [X:$i] : ? [Y:$i] : ( r @ X @ Y ) )).
