% status: Unsatisfiable
% uses: f_barber
fof(f_barber, axiom, ? [B] : ! [X] : (shaves(B, X) <=> ~ shaves(X, X))).
