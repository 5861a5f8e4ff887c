% The image of an intersection under a function that is one to one is the intersection of the images.
thf(f_type,type,f: $i>$i).
thf(a_type,type,a: $i>$o).
thf(b_type,type,b: $i>$o).
thf(a1,axiom,( ! [X:$i,Y:$i] : ( ( ( f @ X ) = ( f @ Y ) ) => ( X = Y ) ) )).
thf(goal,conjecture,( ! [Y:$i] : ( ( ? [X:$i] : ( ( a @ X ) & ( b @ X ) & ( ( f @ X ) = Y ) ) ) <=> ( ( ? [X:$i] : ( ( a @ X ) & ( ( f @ X ) = Y )
  ) ) & ? [X:$i] : ( ( b @ X ) & ( ( f @ X ) = Y ) ) ) ) )).
