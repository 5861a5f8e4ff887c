% What is necessary together is necessary one by one, over worlds.
thf(reach_type,type,reach: $i>$i>$o).
thf(box_type,type,box: ($i>$o)>$i>$o).
thf(box_is,definition,( box = ( ^ [P:$i>$o,W:$i] : ! [V:$i] : ( ( reach @ W @ V ) => ( P @ V ) ) ) )).
thf(goal,conjecture,( ! [P:$i>$o,Q:$i>$o] : ( ( box @ ^ [W:$i] : ( ( P @ W ) & ( Q @ W ) ) ) = ( ^ [W:$i] : ( ( box @ P @ W ) & ( box @ Q @ W ) )
  ) ) )).
