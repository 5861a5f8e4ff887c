% Two functions with the same equations agree on a list of two.
thf(list_type,type,list: $tType).
thf(nil_type,type,nil: list).
thf(cons_type,type,cons: $i>list>list).
thf(f_type,type,f: list>$i).
thf(g_type,type,g: list>$i).
thf(h_type,type,h: $i>$i>$i).
thf(e_type,type,e: $i).
thf(a_type,type,a: $i).
thf(b_type,type,b: $i).
thf(a1,axiom,( ( f @ nil ) = e )).
thf(a2,axiom,( ( g @ nil ) = e )).
thf(a3,axiom,( ! [X:$i,L:list] : ( ( f @ ( cons @ X @ L ) ) = ( h @ X @ ( f @ L ) ) ) )).
thf(a4,axiom,( ! [X:$i,L:list] : ( ( g @ ( cons @ X @ L ) ) = ( h @ X @ ( g @ L ) ) ) )).
thf(goal,conjecture,( ( f @ ( cons @ a @ ( cons @ b @ nil ) ) ) = ( g @ ( cons @ a @ ( cons @ b @ nil ) ) ) )).
