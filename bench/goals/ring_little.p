% A small thing in a ring: the neutral element in front.
thf(add_type,type,add: $i>$i>$i).
thf(mul_type,type,mul: $i>$i>$i).
thf(neg_type,type,neg: $i>$i).
thf(zero_type,type,zero: $i).
thf(one_type,type,one: $i).
thf(a_type,type,a: $i).
thf(a1,axiom,( ! [X:$i,Y:$i] : ( ( add @ X @ Y ) = ( add @ Y @ X ) ) )).
thf(a2,axiom,( ! [X:$i,Y:$i,Z:$i] : ( ( add @ ( add @ X @ Y ) @ Z ) = ( add @ X @ ( add @ Y @ Z ) ) ) )).
thf(a3,axiom,( ! [X:$i] : ( ( add @ X @ zero ) = X ) )).
thf(a4,axiom,( ! [X:$i] : ( ( add @ X @ ( neg @ X ) ) = zero ) )).
thf(a5,axiom,( ! [X:$i,Y:$i,Z:$i] : ( ( mul @ X @ ( add @ Y @ Z ) ) = ( add @ ( mul @ X @ Y ) @ ( mul @ X @ Z ) ) ) )).
thf(a6,axiom,( ! [X:$i,Y:$i,Z:$i] : ( ( mul @ ( mul @ X @ Y ) @ Z ) = ( mul @ X @ ( mul @ Y @ Z ) ) ) )).
thf(a7,axiom,( ! [X:$i] : ( ( mul @ X @ one ) = X ) )).
thf(a8,axiom,( zero != one )).
thf(goal,conjecture,( ( add @ zero @ a ) = a )).
