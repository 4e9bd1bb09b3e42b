% status: Theorem
% uses: goal
fof(goal, conjecture, ? [X] : (drinks(X) => ! [Y] : drinks(Y))).
