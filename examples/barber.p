% No barber shaves exactly those who do not shave themselves.
fof(barber,conjecture,
    ~ ? [B] : ! [X] : (shaves(B,X) <=> ~shaves(X,X))).
