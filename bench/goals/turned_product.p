% The product of two relations turned around is the product of the turned ones the other way around.
thf(turn_type,type,turn: ($i>$i>$o)>$i>$i>$o).
thf(comp_type,type,comp: ($i>$i>$o)>($i>$i>$o)>$i>$i>$o).
thf(turn_is,definition,( turn = ( ^ [R:$i>$i>$o,X:$i,Y:$i] : ( R @ Y @ X ) ) )).
thf(comp_is,definition,( comp = ( ^ [R:$i>$i>$o,S:$i>$i>$o,X:$i,Y:$i] : ? [Z:$i] : ( ( R @ X @ Z ) & ( S @ Z @ Y ) ) ) )).
thf(goal,conjecture,( ! [R:$i>$i>$o,S:$i>$i>$o] : ( ( turn @ ( comp @ R @ S ) ) = ( comp @ ( turn @ S ) @ ( turn @ R ) ) ) )).
