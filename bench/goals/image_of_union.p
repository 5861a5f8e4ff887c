% The image of a union is the union of the images.
thf(f_type,type,f: $i>$i).
thf(a_type,type,a: $i>$o).
thf(b_type,type,b: $i>$o).
thf(goal,conjecture,( ! [Y:$i] : ( ( ? [X:$i] : ( ( ( a @ X ) | ( b @ X ) ) & ( ( f @ X ) = Y ) ) ) <=> ( ( ? [X:$i] : ( ( a @ X ) & ( ( f @ X ) =
  Y ) ) ) | ? [X:$i] : ( ( b @ X ) & ( ( f @ X ) = Y ) ) ) ) )).
