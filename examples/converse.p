% An implication does not give its converse.
fof(forth,axiom,p => q).
fof(back,conjecture,q => p).
