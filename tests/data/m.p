include('modal.ax',[mu_type,mnot_type,mnot]).
thf(conj,conjecture,( ! [Phi: mu > $o] : ( ( mnot @ Phi ) = ( ^ [W: mu] : ~ ( Phi @ W ) ) ) )).
