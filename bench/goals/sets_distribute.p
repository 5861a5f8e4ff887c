% Intersection distributes over union.
thf(a_type,type,a: $i>$o).
thf(b_type,type,b: $i>$o).
thf(c_type,type,c: $i>$o).
thf(goal,conjecture,( ( ^ [X:$i] : ( ( a @ X ) & ( ( b @ X ) | ( c @ X ) ) ) ) = ( ^ [X:$i] : ( ( ( a @ X ) & ( b @ X ) ) | ( ( a @ X ) & ( c @ X
  ) ) ) ) )).
