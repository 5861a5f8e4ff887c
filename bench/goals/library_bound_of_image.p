% A monotone function takes a bound of a set to a bound of its image.
% Needs: monotone_is, upper_is, image_is
include('bench/library/sets.ax').
include('bench/library/functions.ax').
include('bench/library/relations.ax').
include('bench/library/orders.ax').
thf(goal,conjecture,( ! [R:$i>$i>$o,Q:$i>$i>$o,F:$i>$i,S:$i>$o,X:$i] : ( ( ( monotone @ R @ Q @ F ) & ( upper @ R @ S @ X ) ) => ( upper @
  Q @ ( image @ F @ S ) @ ( F @ X ) ) ) )).
