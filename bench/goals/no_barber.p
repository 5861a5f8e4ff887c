% Nobody shaves exactly those who do not shave themselves.
thf(shaves_type,type,shaves: $i>$i>$o).
thf(goal,conjecture,( ~ ? [B:$i] : ! [X:$i] : ( ( shaves @ B @ X ) <=> ~ ( shaves @ X @ X ) ) )).
