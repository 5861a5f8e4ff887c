% A relation is in its transitive closure, that of all transitive relations above it.
thf(r_type,type,r: $i>$i>$o).
thf(closure_type,type,closure: $i>$i>$o).
thf(closure_is,definition,( closure = ( ^ [X:$i,Y:$i] : ! [S:$i>$i>$o] : ( ( ( ! [U:$i,V:$i] : ( ( r @ U @ V ) => ( S @ U @ V ) ) ) & ( !
  [U:$i,V:$i,W:$i] : ( ( ( S @ U @ V ) & ( S @ V @ W ) ) => ( S @ U @ W ) ) ) ) => ( S @ X @ Y ) ) ) )).
thf(goal,conjecture,( ! [X:$i,Y:$i] : ( ( r @ X @ Y ) => ( closure @ X @ Y ) ) )).
