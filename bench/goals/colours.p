% Six colours that all differ, each of which likes the next one: what red likes doesn't like red.
thf(red_type,type,red: $i).
thf(green_type,type,green: $i).
thf(blue_type,type,blue: $i).
thf(yellow_type,type,yellow: $i).
thf(white_type,type,white: $i).
thf(black_type,type,black: $i).
thf(likes_type,type,likes: $i>$i).
thf(a1,axiom,( green != red )).
thf(a2,axiom,( blue != red )).
thf(a3,axiom,( blue != green )).
thf(a4,axiom,( yellow != red )).
thf(a5,axiom,( yellow != green )).
thf(a6,axiom,( yellow != blue )).
thf(a7,axiom,( white != red )).
thf(a8,axiom,( white != green )).
thf(a9,axiom,( white != blue )).
thf(a10,axiom,( white != yellow )).
thf(a11,axiom,( black != red )).
thf(a12,axiom,( black != green )).
thf(a13,axiom,( black != blue )).
thf(a14,axiom,( black != yellow )).
thf(a15,axiom,( black != white )).
thf(a16,axiom,( ( likes @ red ) = green )).
thf(a17,axiom,( ( likes @ green ) = blue )).
thf(a18,axiom,( ( likes @ blue ) = yellow )).
thf(a19,axiom,( ( likes @ yellow ) = white )).
thf(a20,axiom,( ( likes @ white ) = black )).
thf(a21,axiom,( ( likes @ black ) = red )).
thf(goal,conjecture,( ( likes @ ( likes @ red ) ) != red )).
