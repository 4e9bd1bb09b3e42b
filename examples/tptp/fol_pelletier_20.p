% status: Theorem
% uses: goal
fof(goal, conjecture, (! [X, Y] : ? [Z] : ! [W] : ((p(X) & q(Y)) => (r(Z) & s(W)))) => ((? [X, Y] : (p(X) & q(Y))) => ? [Z] : r(Z))).
