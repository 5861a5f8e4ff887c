% Who killed the aunt: she herself.
thf(lives_type,type,lives: $i>$o).
thf(hates_all_type,type,hates_all: $i>$o).
thf(killed_type,type,killed: $i>$i>$o).
thf(hates_type,type,hates: $i>$i>$o).
thf(richer_type,type,richer: $i>$i>$o).
thf(agatha_type,type,agatha: $i).
thf(butler_type,type,butler: $i).
thf(charles_type,type,charles: $i).
thf(a1,axiom,( ? [X:$i] : ( ( lives @ X ) & ( killed @ X @ agatha ) ) )).
thf(a2,axiom,( ( lives @ agatha ) & ( lives @ butler ) & ( lives @ charles ) )).
thf(a3,axiom,( ! [X:$i] : ( ( lives @ X ) => ( ( X = agatha ) | ( X = butler ) | ( X = charles ) ) ) )).
thf(a4,axiom,( ! [X:$i,Y:$i] : ( ( killed @ X @ Y ) => ( hates @ X @ Y ) ) )).
thf(a5,axiom,( ! [X:$i,Y:$i] : ( ( killed @ X @ Y ) => ~ ( richer @ X @ Y ) ) )).
thf(a6,axiom,( ! [X:$i] : ( ( hates @ agatha @ X ) => ~ ( hates @ charles @ X ) ) )).
thf(a7,axiom,( ! [X:$i] : ( ( X != butler ) => ( hates @ agatha @ X ) ) )).
thf(a8,axiom,( ! [X:$i] : ( ( ~ ( richer @ X @ agatha ) ) => ( hates @ butler @ X ) ) )).
thf(a9,axiom,( ! [X:$i] : ( ( hates @ agatha @ X ) => ( hates @ butler @ X ) ) )).
thf(a10,axiom,( ! [X:$i] : ? [Y:$i] : ~ ( hates @ X @ Y ) )).
thf(a11,axiom,( agatha != butler )).
thf(goal,conjecture,( ( killed @ agatha @ agatha ) )).
