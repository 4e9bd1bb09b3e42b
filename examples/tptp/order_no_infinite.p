% status: Unsatisfiable
% uses: f_irrefl f_trans f_serial
fof(f_irrefl, axiom, ! [X] : ~ lt(X, X)).
fof(f_trans, axiom, ! [X, Y, Z] : ((lt(X, Y) & lt(Y, Z)) => lt(X, Z))).
fof(f_serial, axiom, lt(a, b) & lt(b, c) & lt(c, a)).
