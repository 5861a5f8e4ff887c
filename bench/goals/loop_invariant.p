% What follows from an invariant holds after each run of a loop.
thf(state_type,type,state: $tType).
thf(step_type,type,step: state>state>$o).
thf(start_type,type,start: state>$o).
thf(inv_type,type,inv: state>$o).
thf(good_type,type,good: state>$o).
thf(run_type,type,run: state>state>$o).
thf(a1,axiom,( ! [X:state,Y:state] : ( ( run @ X @ Y ) => ! [P:state>$o] : ( ( ( P @ X ) & ! [U:state,V:state] : ( ( ( P @ U ) & ( step @ U @ V )
  ) => ( P @ V ) ) ) => ( P @ Y ) ) ) )).
thf(a2,axiom,( ! [X:state] : ( ( start @ X ) => ( inv @ X ) ) )).
thf(a3,axiom,( ! [U:state,V:state] : ( ( ( inv @ U ) & ( step @ U @ V ) ) => ( inv @ V ) ) )).
thf(a4,axiom,( ! [X:state] : ( ( inv @ X ) => ( good @ X ) ) )).
thf(goal,conjecture,( ! [X:state,Y:state] : ( ( ( start @ X ) & ( run @ X @ Y ) ) => ( good @ Y ) ) )).
