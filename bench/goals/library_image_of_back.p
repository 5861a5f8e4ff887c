% A function that reaches everything takes what it takes into a set to that set.
% Needs: onto_is, image_is, back_is
include('bench/library/all.ax').
thf(goal,conjecture,( ! [F:$i>$i,S:$i>$o] : ( ( onto @ F ) => ( ( image @ F @ ( back @ F @ S ) ) = S ) ) )).
