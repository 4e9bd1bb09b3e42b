% status: Theorem
% uses: goal
fof(goal, conjecture, ? [X, Y] : (p(X, Y) => ! [Z, W] : p(Z, W))).
