% Two sets have an intersection.
thf(red_type,type,red: $i>$o).
thf(round_type,type,round: $i>$o).
thf(goal,conjecture,( ? [S:$i>$o] : ! [X:$i] : ( ( S @ X ) <=> ( ( red @ X ) & ( round @ X ) ) ) )).
