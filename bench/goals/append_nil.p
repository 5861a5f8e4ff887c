% By induction appending the empty list does nothing.
thf(list_type,type,list: $tType).
thf(nil_type,type,nil: list).
thf(cons_type,type,cons: $i>list>list).
thf(app_type,type,app: list>list>list).
thf(a1,axiom,( ! [P:list>$o] : ( ( ( P @ nil ) & ! [X:$i,L:list] : ( ( P @ L ) => ( P @ ( cons @ X @ L ) ) ) ) => ! [L:list] : ( P @ L ) ) )).
thf(a2,axiom,( ! [L:list] : ( ( app @ nil @ L ) = L ) )).
thf(a3,axiom,( ! [X:$i,K:list,L:list] : ( ( app @ ( cons @ X @ K ) @ L ) = ( cons @ X @ ( app @ K @ L ) ) ) )).
thf(goal,conjecture,( ! [L:list] : ( ( app @ L @ nil ) = L ) )).
