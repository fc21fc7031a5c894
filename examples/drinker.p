% There is someone of whom it holds that, if they drink, everyone drinks.
fof(drinker,conjecture,
    ? [X] : (drinks(X) => ! [Y] : drinks(Y))).
