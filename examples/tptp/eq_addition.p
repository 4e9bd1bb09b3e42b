% status: Theorem
% uses: f_zero f_suc goal
fof(f_zero, axiom, ! [X] : plus(X, zero) = X).
fof(f_suc, axiom, ! [X, Y] : plus(X, s(Y)) = s(plus(X, Y))).
fof(goal, conjecture, plus(s(s(zero)), s(s(zero))) = s(s(s(s(zero))))).
